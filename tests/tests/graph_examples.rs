//! `tarczolin_graph` on the inputs that document 01 and docs/CONTRACT.md tell of, with its exact answer; on every short
//! schedule; and with outputs of every length.
use tarczolin_tests::calls;
use tarczolin_tests::files::{lines, read};
use tarczolin_tests::lent::held;
use tarczolin_tests::oracle::calls::{graph, Found, GRAPH};
use tarczolin_tests::oracle::Refusal;
use tarczolin_tests::random::Random;

const PAIR: &str = "01 10000000000001 110001 01 10010000000001 110000";

/// Holds the library to the oracle. Gives what was found.
fn ask(random: &mut Random, file: &[u8], schedule: &[u8], output: usize) -> Found {
    let found = graph(file, schedule, output).map(Some);
    held(random, [file, schedule], output, &found, |[file, schedule], out| calls::graph(file, schedule, out));
    found
}

/// Every schedule of up to six bytes over the threads of a program and two bytes that name none.
#[test]
fn every_short_schedule() {
    let mut random = Random::new(12);
    let (mut answered, mut refused) = (0, 0);
    for name in ["store-load-pair", "load-add-store", "load-assert-beside-store", "empty-thread", "no-thread"] {
        let file = read(&format!("examples/{name}.hex"));
        let mut schedules = vec![vec![]];
        for k in 0.. {
            let Some(schedule) = schedules.get(k).cloned() else { break };
            *(if ask(&mut random, &file, &schedule, GRAPH).is_ok() { &mut answered } else { &mut refused }) += 1;
            if schedule.len() < 6 {
                schedules.extend([0, 1, 2, 0xff].map(|t| [schedule.clone(), vec![t]].concat()));
            }
        }
    }
    assert_eq!((answered, refused), (6 + 6 + 2 + 1 + 1, 5 * 5461 - 16));
}

/// Outputs of every length, with a schedule that is answered, refused by 20, and by 21.
#[test]
fn every_output() {
    let mut random = Random::new(13);
    let file = lines(PAIR);
    for output in (0..=600).chain([1024, 4096, 65536]) {
        for schedule in [&[0, 0, 1, 1][..], &[0, 9], &[0, 1], &[]] {
            let refused_by_22 = ask(&mut random, &file, schedule, output) == Err(Refusal { number: 22, place: 0 });
            assert_eq!(refused_by_22, output < 512);
        }
    }
}

/// Both give exactly this.
fn expect(name: &str, file: &[u8], schedule: &[u8], output: usize, answer: Found) {
    assert_eq!(ask(&mut Random::new(14), file, schedule, output), answer, "{name}");
}

fn shown(words: &str) -> Found {
    Ok(Some(lines(words)))
}

fn refusal(number: u8, place: u64) -> Found {
    Err(Refusal { number, place })
}

#[test]
fn examples_of_document_01() {
    let example = |name: &str| read(&format!("examples/{name}.hex"));
    let pair = example("store-load-pair");
    expect("the pair", &pair, &[0, 0, 1, 1], 512, shown("400001ffff 4001010000 41000000 41010100"));
    expect("the pair", &pair, &[0, 1, 0, 1], 512, shown("4000010100 4001010000 41000000 41010100"));
    expect("the pair", &pair, &[1, 1, 0, 0], 512, shown("4000010100 400101ffff 41000000 41010100"));
    expect("no steps", &example("empty-thread"), &[], 512, shown(""));
    expect("no thread", &example("no-thread"), &[], 512, shown(""));
    expect("no thread, and a step", &example("no-thread"), &[0], 512, refusal(20, 0));
    expect("no thread, and no room", &example("no-thread"), &[0], 511, refusal(22, 0));
    expect("whole", &example("whole"), &[2, 0, 1], 512, shown("4001000000 400200ffff 41000000"));
    let swaps = example("compare-and-swap-3");
    expect("a failed swap only reads", &swaps, &[1, 0, 2], 512, shown("4000000100 400100ffff 4002000100 41000100"));
    let sums = example("fetch-and-add-3");
    expect("sums in a row", &sums, &[2, 0, 1], 512, shown("4000000200 4001000000 400200ffff 4100020000000100"));
    let failing = example("load-assert-beside-store");
    expect("a failing schedule has a graph", &failing, &[1, 0], 512, shown("4000000100 41000100"));
    let six = shown("41000000 41010100 41020200 41030300 41040400 41050500");
    expect("six stores", &example("six-stores"), &[5, 4, 3, 2, 1, 0], 512, six);
    expect("the 25th access", &example("accesses-25-refused"), &[], 0, refusal(6, 27));
}

#[test]
fn sums_wrap() {
    let wraps = read("examples/add-wraps.hex");
    expect("adding 1 to ffffffff", &wraps, &[0, 0, 0], 512, shown("4000010000 4000020001 410000000001"));
    // the last store is done only where the sum is 0
    let memory = lines("01 100000ffffffff 1200000000000001 110100 2201000000000001 10010000000001");
    expect("fetch and add", &memory, &[0; 4], 512, shown("4000010000 4000020001 410000000001 41010003"));
    let register = lines("01 200200ffffffff 21020000000001 2202000000000001 10010000000001");
    expect("register add", &register, &[0], 512, shown("41010000"));
    let past = lines("01 100000fffffffe 1200000000000003 110100 2201000000000101 10010000000001");
    expect("3 to fffffffe is 1", &past, &[0; 4], 512, shown("4000010000 4000020001 410000000001 41010003"));
}

#[test]
fn longest_runs() {
    let loads: String = (0..24).map(|k| format!("40{:02x}{:02x}ffff ", k / 12, k % 12)).collect();
    let file = read("examples/accesses-24.hex");
    expect("24 loads", &file, &[vec![0; 12], vec![1; 12]].concat(), 512, shown(&loads));
    expect("24 loads and one more", &file, &[vec![1; 12], vec![0; 13]].concat(), 512, refusal(20, 24));
    expect("23 loads", &file, &[vec![1; 12], vec![0; 11]].concat(), 512, refusal(21, 23));
    // six threads, each a fetch and add on four locations: eight `41` lines of three writes
    let code = |t: usize| (0..4).map(|k| format!(" 1200{:02x}0000000001", (4 * t + k) % 8)).collect::<String>();
    let sums = lines(&(0..6).map(|t| format!("01 {} ", code(t))).collect::<String>());
    let schedule: Vec<u8> = (0..24).map(|k| k % 6).collect();
    let found = ask(&mut Random::new(15), &sums, &schedule, 512).unwrap().unwrap();
    assert_eq!(found.len(), 400, "the longest text");
}

/// The decided readings on steps, schedules and outputs, by their numbers.
#[test]
fn decided_readings() {
    let pair = lines(PAIR);
    expect("13: fails before the first step", &lines("01 23000000000001"), &[], 512, shown(""));
    expect("13: and has ended", &lines("01 23000000000001 110000"), &[0], 512, refusal(20, 0));
    let skipped = lines("01 110000 2200000000000001 10010000000001 10020000000001 01 10000000000001");
    expect("14: numbers of accesses done", &skipped, &[1, 0, 0], 512, shown("4000000100 41000100 41020001"));
    let same = lines("01 13000000000000000000000000 01 13000000000000000000000000");
    expect("15: a swap of 0 to 0 writes", &same, &[1, 0], 512, shown("4000000100 400100ffff 410001000000"));
    let nothing = lines("01 1200000000000000 01 110000");
    expect("40: a fetch and add of 0 only reads", &nothing, &[0, 1], 512, shown("400000ffff 400100ffff"));
    expect("16: a step behind a full schedule", &pair, &[0, 0, 1, 1, 0], 512, refusal(20, 4));
    expect("16: behind no steps", &lines("01"), &[0], 512, refusal(20, 0));
    expect("17: a bad byte, and not full", &pair, &[1, 2], 512, refusal(20, 1));
    expect("17: only not full", &pair, &[1, 0], 512, refusal(21, 2));
    expect("17: no steps, not full", &pair, &[], 512, refusal(21, 0));
    expect("20: 22 before 20", &pair, &[9], 511, refusal(22, 0));
    expect("20: 22 before 21", &pair, &[0], 0, refusal(22, 0));
    expect("20: 22 for a text of no bytes", &lines("01"), &[], 511, refusal(22, 0));
    expect("20: the program's before 22", &lines("0x"), &[9], 0, refusal(2, 1));
}

/// What a step does where it is easily mistaken: the store at location 7 tells which value was met.
#[test]
fn steps() {
    let table: [(&str, &str, &[u8], &str); 10] = [
        (
            "the operand of a fetch and add is read before r changes: 5 plus 1",
            "01 10000000000005 20000000000001 1200000100000000 110100 2201000000000601 10070000000001",
            &[0, 0, 0, 0],
            "4000010000 4000020001 410000000001 41070003",
        ),
        (
            "r gets the old value of a fetch and add",
            "01 10000000000005 1200000000000001 2200000000000501 10070000000001",
            &[0, 0, 0],
            "4000010000 410000000001 41070002",
        ),
        (
            "the value that a compare and swap expects is read before r changes: 0, not 5",
            "01 10000000000005 13000001000000000000000009 10070000000001",
            &[0, 0, 0],
            "4000010000 41000000 41070002",
        ),
        (
            "the value that a compare and swap writes is read before r changes: 0, not 5",
            "01 10000000000005 13000000000000050100000000 110100 2201000000000001 10070000000001",
            &[0, 0, 0, 0],
            "4000010000 4000020001 410000000001 41070003",
        ),
        (
            "a failed compare and swap gives r the old value",
            "01 10000000000005 13000000000000000000000001 2200000000000501 10070000000001",
            &[0, 0, 0],
            "4000010000 41000000 41070002",
        ),
        ("a register is added to itself", "01 20000000000003 21000100000000 2200000000000601 10070000000001", &[0], "41070000"),
        ("a skip of one skips one", "01 2200000000000101 10010000000001 10020000000001", &[0], "41020000"),
        ("a skip to the end ends the thread", "01 110000 2200000000000101 10010000000001", &[0], "400000ffff"),
        (
            "a failed thread does nothing more, the others go on",
            "01 110000 23000000000001 10010000000001 01 10000000000001",
            &[0, 1],
            "400000ffff 41000100",
        ),
        (
            "a read takes from the last write, its own thread's too",
            "01 10000000000001 110000 01 10000000000001",
            &[0, 1, 0],
            "4000010100 410000000100",
        ),
    ];
    for (name, file, schedule, text) in table {
        expect(name, &lines(file), schedule, 512, shown(text));
    }
}
