//! `tarczolin_judge` on the graphs that document 01 and docs/CONTRACT.md tell of, with its exact answer; on a graph with
//! each byte changed; and with outputs of every length.
use tarczolin_tests::calls;
use tarczolin_tests::files::{lines, read};
use tarczolin_tests::lent::held;
use tarczolin_tests::oracle::calls::{judge, Found};
use tarczolin_tests::oracle::Refusal;
use tarczolin_tests::random::Random;

const PAIR: &str = "01 10000000000001 110001 01 10010000000001 110000";
const YES: &str = "400001ffff 4001010000 41000000 41010100";
const NO: &str = "400001ffff 400101ffff 41000000 41010100";

/// Holds the library to the oracle. Gives what was found.
fn ask(random: &mut Random, file: &[u8], text: &[u8], output: usize) -> Found {
    let found = judge(file, text, output);
    held(random, [file, text], output, &found, |[file, text], out| calls::judge(file, text, out));
    found
}

/// Both give exactly this.
fn expect(name: &str, file: &str, text: &[u8], output: usize, answer: Found) {
    assert_eq!(ask(&mut Random::new(24), &lines(file), text, output), answer, "{name}");
}

fn yes(schedule: &[u8]) -> Found {
    Ok(Some(schedule.to_vec()))
}

fn refusal(number: u8, place: u64) -> Found {
    Err(Refusal { number, place })
}

#[test]
fn examples_of_document_01() {
    assert_eq!(lines(PAIR), read("examples/store-load-pair.hex"));
    expect("its first graph", PAIR, &lines(NO), 24, Ok(None));
    expect("its second graph", PAIR, &lines(YES), 24, yes(&[0, 0, 1, 1]));
}

/// The decided readings on graph texts, by their numbers.
#[test]
fn decided_readings() {
    let many = format!("4100{}", (0..26).map(|k| format!("{:02x}{:02x}", k / 13, k % 13)).collect::<String>());
    let table = [
        ("22: a read twice", "400001ffff 400001ffff", refusal(33, 2)),
        ("23: a location twice", "41000000 41000100", refusal(33, 2)),
        ("24: the first line that does not come after the one before", "400101ffff 400001ffff", refusal(33, 2)),
        ("24: a read behind the writes", "41000000 400001ffff", refusal(33, 2)),
        ("24: locations that fall", "41010000 41000100", refusal(33, 2)),
        ("24: an event twice, in two lines", "41000000 41010000", refusal(33, 2)),
        ("24: an event twice, in one line", "410000000000", refusal(33, 1)),
        ("25: 33 before a later 30", "400101ffff 400001ffff 0", refusal(33, 2)),
        ("26: threads of the program, not six", "400200ffff", refusal(32, 1)),
        ("26: in a source", "4000010200", refusal(32, 1)),
        ("26: in a write", "41000200", refusal(32, 1)),
        ("27: a read that is its own source", "4000010001 400101ffff 41000000 41010100", Ok(None)),
        ("27: an event that the thread never does", "400001ffff 40000fffff 4001010000 41000000 41010100", Ok(None)),
        ("27: a source that does not write", "4000010101 4001010000 41000000 41010100", Ok(None)),
        ("27: a source that writes elsewhere", "4000010000 4001010000 41000000 41010100", Ok(None)),
        ("28: half of (ff, ff)", "400001ff00", refusal(32, 1)),
        ("28: the other half", "40000100ff", refusal(32, 1)),
        ("28: (ff, ff) is only a source", "40ffffffff", refusal(32, 1)),
        ("28: (ff, ff) is no write", "4100ffff", refusal(32, 1)),
        ("29: 26 writes", &many, Ok(None)),
        ("30: no lines", "", Ok(None)),
        ("32: i above 15", "400010ffff", refusal(32, 1)),
        ("32: j above 15", "4000010010", refusal(32, 1)),
        ("32: l above 7", "41080000", refusal(32, 1)),
        ("32 before 33", "400101ffff 400010ffff", refusal(32, 2)),
        ("31: a 41 without events", "4100", refusal(31, 1)),
        ("31: half an event", "410000", refusal(31, 1)),
        ("31: an event and a half", "4100000001", refusal(31, 1)),
        ("31: a long 40", "400001ffff00", refusal(31, 1)),
        ("31: another first byte", "420000", refusal(31, 1)),
        ("30: odd", "40000", refusal(30, 1)),
        ("30: G", "400001FFFG", refusal(30, 1)),
        ("b: a capital", "400001FFff 4001010000 41000000 41010100", yes(&[0, 0, 1, 1])),
    ];
    for (name, text, answer) in table {
        expect(name, PAIR, &lines(text), 24, answer);
    }
    expect("30: no lines and no events", "01", b"", 24, yes(&[]));
    expect("no lines and no thread", "", b"", 24, yes(&[]));
    expect("no lines, no thread and no room", "", b"", 23, refusal(22, 0));
    expect("a read of no thread", "", b"400000ffff\n", 24, refusal(32, 1));
    expect("a write of no thread", "", b"41000000\n", 24, refusal(32, 1));
    expect("30: no last 0a", PAIR, b"400001ffff", 24, refusal(30, 1));
    expect("30: a lone 0a", PAIR, b"\n", 24, refusal(30, 1));
    let circle = "01 110000 10010100000000 01 110001 10000100000000";
    expect("31: values in a circle", circle, &lines("4000000101 4001000001 41000101 41010001"), 24, Ok(None));
}

/// Reading 20 and 21: an output of 24 bytes, and a text of any length.
#[test]
fn lengths() {
    for output in 0..=30 {
        for text in [YES, NO, "0x", "42", "400900ffff", "41000000 41000000", ""] {
            let found = ask(&mut Random::new(25), &lines(PAIR), &lines(text), output);
            assert_eq!(found == refusal(22, 0), output < 24);
        }
    }
    expect("the program's before 22", "0x", &lines(YES), 0, refusal(2, 1));
    expect("22 before 30", PAIR, b"x", 23, refusal(22, 0));
    expect("22 for a schedule of no steps", "01", b"", 23, refusal(22, 0));
    for length in [512, 4_096, 5_000, 70_000, 1_000_000] {
        let zeros = "0".repeat(length);
        expect("a long 40 line", PAIR, &lines(&format!("400001ffff 40{zeros}")), 24, refusal(31, 2));
        expect("a long 41 line", PAIR, &lines(&format!("400001ffff 4100{zeros}0000")), 24, refusal(33, 2));
        expect("30 over the whole line before 31", PAIR, &lines(&format!("400001ffff 40{zeros}x")), 24, refusal(30, 2));
        expect("32 over the whole line before 33", PAIR, &lines(&format!("4100{zeros}00000200")), 24, refusal(32, 1));
        expect("lines behind the first that is refused", PAIR, &lines(&"41000000 ".repeat(length)), 24, refusal(33, 2));
    }
}

/// Every event that may stand in a text, in one line and in two: only a second naming is refused, wherever it stands.
#[test]
fn every_event() {
    let all: Vec<String> = (0..96).map(|k| format!("{:02x}{:02x}", k / 16, k % 16)).collect();
    let six = "01 ".repeat(6);
    expect("all writes", &six, &lines(&format!("4100{}", all.concat())), 24, Ok(None));
    let reads: String = all.iter().map(|event| format!("40{event}ffff ")).collect();
    expect("all reads, all writes", &six, &lines(&format!("{reads} 4100{}", all.concat())), 24, Ok(None));
    expect("and one more read", &six, &lines(&format!("{reads} 40050fffff")), 24, refusal(33, 97));
    for (k, event) in all.iter().enumerate() {
        expect("twice in one line", &six, &lines(&format!("4100{}{event}", all.concat())), 24, refusal(33, 1));
        expect("twice in two lines", &six, &lines(&format!("4100{} 4107{event}", all.concat())), 24, refusal(33, 2));
        let parted = format!("4100{} 4101{}", all[..k].concat(), all[k..].concat());
        expect("parted", &six, &lines(&parted), 24, if k == 0 { refusal(31, 1) } else { Ok(None) });
    }
}

/// What is easily mistaken about the four orders and about who makes a graph.
#[test]
fn judgements() {
    let sums = "01 1200000000000001 01 1200000000000001";
    let writes = "01 10000000000001 01 10000000000002 01 110000 110000";
    let swaps = "01 13000000000000000000000001 01 13000000000000000000000001";
    let table = [
        ("a fetch and add is not before itself", sums, "400000ffff 4001000000 410000000100", yes(&[0, 1])),
        ("and may go the other way", sums, "4000000100 400100ffff 410001000000", yes(&[1, 0])),
        ("two sums from one source: from-reads goes round", sums, "400000ffff 400100ffff 410000000100", Ok(None)),
        ("sums against coherence", sums, "400000ffff 4001000000 410001000000", Ok(None)),
        ("sums that read from each other", sums, "4000000100 4001000000 410000000100", Ok(None)),
        ("a sum that reads from itself", sums, "4000000000 4001000000 410000000100", Ok(None)),
        ("reads against coherence", writes, "4002000100 4002010000 410000000100", Ok(None)),
        ("reads with coherence", writes, "4002000000 4002010100 410000000100", yes(&[0, 2, 1, 2])),
        ("coherence alone tells apart", writes, "400200ffff 400201ffff 410001000000", yes(&[2, 2, 1, 0])),
        ("back to the initial write", writes, "4002000000 400201ffff 410000000100", Ok(None)),
        ("a failed swap reads what was written", swaps, "400000ffff 4001000000 41000000", yes(&[0, 1])),
        ("a failed swap does not write", swaps, "400000ffff 4001000000 410000000100", Ok(None)),
        ("two swaps cannot both succeed", swaps, "400000ffff 400100ffff 410000000100", Ok(None)),
        ("a swap that finds 0 writes", swaps, "400000ffff 400100ffff 41000000", Ok(None)),
        ("the initial value is 0", "01 110000 2200000000000001 10010000000001", "400000ffff 41010001", yes(&[0, 0])),
        ("and not 1", "01 110000 2200000000000101 10010000000001", "400000ffff 41010001", Ok(None)),
        ("a read missing", writes, "4002000000 410000000100", Ok(None)),
        ("a write missing", writes, "4002000000 4002010000 41000000", Ok(None)),
        ("a write too many", writes, "4002000000 4002010100 4100000001000200", Ok(None)),
        ("a write at another location", writes, "400200ffff 400201ffff 41000000 41010100", Ok(None)),
        ("all writes at another location", writes, "400200ffff 400201ffff 410100000100", Ok(None)),
        ("an assertion that fails ends the thread", "01 110000 23000000000001 110000", "400000ffff", yes(&[0])),
        ("and nothing behind it is done", "01 110000 23000000000001 110000", "400000ffff 400001ffff", Ok(None)),
    ];
    for (name, file, text, answer) in table {
        expect(name, file, &lines(text), 24, answer);
    }
}

/// Each of the 256 bytes at each place of document 01's graph, each byte lost, and each part of it.
#[test]
fn every_byte_at_every_place() {
    let mut random = Random::new(26);
    let file = lines(PAIR);
    let text = lines(YES);
    let mut answers = std::collections::BTreeMap::new();
    let mut ask = |text: &[u8]| {
        let found = ask(&mut random, &file, text, 24);
        *answers.entry(found.map(|s| s.is_some()).map_err(|r| r.number)).or_insert(0) += 1;
    };
    for at in 0..text.len() {
        for byte in 0..=255 {
            let mut changed = text.clone();
            changed[at] = byte;
            ask(&changed);
        }
        ask(&[&text[..at], &text[at + 1..]].concat());
        ask(&text[..at]);
        ask(&text[at..]);
    }
    println!("{answers:?}");
    assert!([Ok(true), Ok(false), Err(30), Err(31), Err(32), Err(33)].iter().all(|a| answers[a] >= 5));
}
