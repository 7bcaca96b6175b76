//! Request b: remarks and capital digits change no list, no graph and no judgement, only the places of refusals, and each remark counts as a line there.
use tarczolin_tests::calls::{self, check, Answer, GRAPH, ROW, SCHEDULE};
use tarczolin_tests::files::{lines, read, text};
use tarczolin_tests::oracle::calls::judge;
use tarczolin_tests::oracle::decode::decode;
use tarczolin_tests::random::program::{frames, Size, SMALL};
use tarczolin_tests::random::{graph, remarks, schedule, Random};
use tarczolin_tests::share;

const ACCEPTED: Answer = Answer::Answered(0);
const PAIR: &str = "01 10000000000001 110001 01 10010000000001 110000";
const YES: &str = "400001ffff 4001010000 41000000 41010100";

/// Two threads of equal code with letters in it, two more, and a `02` line for each two.
const ALIKE: &str = "01 10000000abcdef 01 10000000abcdef 01 2000000000000f 110100 01 2000000000000f 110100 020001 020203";

/// Small enough for a list that is walked in a moment.
const QUICK: Size = Size { threads: 4, instructions: 5, accesses: 9, ..SMALL };

/// Everything that the calls about lists say of a file: the rows of up to 2,000 listed schedules, the two counts, and the first violation.
fn list(file: &[u8]) -> (Answer, Vec<u8>, [u64; 2], Answer, Vec<u8>) {
    let mut rows = vec![0; 2_000 * ROW];
    let answer = calls::rows(file, &mut rows);
    let mut numbers = [0; 2];
    let [listed, failing] = &mut numbers;
    assert_eq!(calls::count(file, listed, failing), ACCEPTED, "{}", file.escape_ascii());
    let mut first = vec![0; SCHEDULE];
    let violation = calls::violation(file, &mut first);
    (answer, rows, numbers, violation, first)
}

/// What the judge says of a text, and what it leaves in the output.
fn judged(file: &[u8], text: &[u8]) -> (Answer, Vec<u8>) {
    let mut out = vec![0xee; SCHEDULE];
    (calls::judge(file, text, &mut out), out)
}

/// The file of these lines with a line put in front of line k, from 0.
fn with_line(words: &str, k: usize, line: &[u8]) -> Vec<u8> {
    let mut all: Vec<Vec<u8>> = words.split_whitespace().map(|w| [w.as_bytes(), b"\n"].concat()).collect();
    all.insert(k, line.to_vec());
    all.concat()
}

/// A remark with each byte in it stands at each line, the first, the last, and between the `02` lines.
#[test]
fn every_byte_in_a_remark() {
    let quiet = list(&lines(ALIKE));
    let pair = lines(PAIR);
    let yes = judged(&pair, &lines(YES));
    assert_eq!((yes.0, &yes.1[..4]), (Answer::Answered(4), &[0, 0, 1, 1][..]));
    for byte in (0..=255).filter(|&b| b != b'\n') {
        for k in 0..=ALIKE.split_whitespace().count() {
            let file = with_line(ALIKE, k, &[b'#', byte, b'x', byte, b'\n']);
            assert_eq!(check(&file), ACCEPTED, "byte {byte:02x} in a remark at line {}", k + 1);
            if k.is_multiple_of(5) {
                assert!(list(&file) == quiet, "byte {byte:02x} in a remark at line {}", k + 1);
            }
        }
        for k in 0..=4 {
            let text = with_line(YES, k, &[b'#', byte, b'\n']);
            assert_eq!(judged(&pair, &text), yes, "byte {byte:02x} in a remark at line {} of a graph", k + 1);
        }
    }
    // 0a ends the remark, and what stands behind it is a line
    assert_eq!(check(&with_line(ALIKE, 2, b"#\nx\n")), Answer::Refused(2, 4));
    assert_eq!(judged(&pair, &with_line(YES, 2, b"#\nx\n")).0, Answer::Refused(30, 4));
}

/// Each letter a capital by itself and all together, and `G` and its like at the place of each digit.
#[test]
fn capitals_in_every_position() {
    let (file, pair, yes) = (lines(ALIKE), lines(PAIR), lines(YES));
    let (quiet, said) = (list(&file), judged(&pair, &yes));
    assert!(list(&file.to_ascii_uppercase()) == quiet);
    assert_eq!(judged(&pair, &yes.to_ascii_uppercase()), said);
    let mut capitals = 0;
    for at in 0..file.len() {
        let mut loud = file.clone();
        loud[at].make_ascii_uppercase();
        if loud != file {
            capitals += 1;
            assert!(list(&loud) == quiet, "a capital at {at}: code is compared by its bytes after reading");
        }
        let line = 1 + file[..at].iter().filter(|&&c| c == b'\n').count() as u64;
        for no_digit in *b"Gg@`/:" {
            let mut broken = file.clone();
            if broken[at] != b'\n' {
                broken[at] = no_digit;
                assert_eq!(check(&broken), Answer::Refused(2, line), "{} at {at}", no_digit as char);
            }
        }
    }
    assert_eq!(capitals, 14);
    for at in (0..yes.len()).filter(|&k| yes[k] != b'\n') {
        let mut loud = yes.clone();
        loud[at].make_ascii_uppercase();
        assert_eq!(judged(&pair, &loud), said);
        loud[at] = b'G';
        let line = 1 + yes[..at].iter().filter(|&&c| c == b'\n').count() as u64;
        assert_eq!(judged(&pair, &loud).0, Answer::Refused(30, line));
    }
}

/// Files of 4,095 to 4,097 bytes, filled by one remark.
#[test]
fn filled_to_the_limit() {
    let quiet = list(&lines(ALIKE));
    let mut random = Random::new(61);
    for length in [4_094, 4_095, 4_096, 4_097, 4_098] {
        for _ in 0..40 {
            let mut file = lines(ALIKE);
            remarks::fill(&mut random, &mut file, length);
            assert_eq!(file.len(), length);
            if length > 4_096 {
                assert_eq!(check(&file), Answer::Refused(1, 0));
                continue;
            }
            assert_eq!(check(&file), ACCEPTED);
            assert!(list(&file) == quiet, "a file of {length} bytes");
            // the last line without its 0a: 2 there, whatever it is
            let lines = file.iter().filter(|&&c| c == b'\n').count() as u64;
            assert_eq!(check(&file[..length - 1]), Answer::Refused(2, lines));
        }
    }
    // a graph text has no such limit, and a place may lie far behind
    let pair = lines(PAIR);
    let many = "# any\n".repeat(70_000).into_bytes();
    assert_eq!(judged(&pair, &[&many[..], &lines(YES)].concat()), judged(&pair, &lines(YES)));
    assert_eq!(judged(&pair, &[&many[..], b"42\n"].concat()).0, Answer::Refused(31, 70_001));
    assert_eq!(judged(&pair, &[&many[..], b"# any"].concat()).0, Answer::Refused(30, 70_001));
}

/// Random programs and graph texts with noise, against the same without.
#[test]
fn noise_changes_nothing() {
    let mut random = Random::new(62);
    let mut with_both = 0;
    for _ in 0..share::of(3_000) {
        let quiet = text(&frames(&mut random, QUICK));
        let mut loud = quiet.clone();
        remarks::noise(&mut random, &mut loud);
        with_both += (loud.iter().any(|c| (b'A'..=b'F').contains(c)) && loud.contains(&b'#')) as usize;
        assert_eq!(decode(&loud), decode(&quiet), "the oracle on {}", loud.escape_ascii());
        assert!(list(&loud) == list(&quiet), "{}", loud.escape_ascii());
        let program = decode(&quiet).unwrap();
        let steps = schedule::full(&mut random, &program);
        let graphs = [&quiet, &loud].map(|file| {
            let mut out = vec![0; GRAPH];
            (calls::graph(file, &steps, &mut out), out)
        });
        assert_eq!(graphs[0], graphs[1]);
        let change = random.pick(&graph::OF_THE_GRAPH);
        let (_, one) = graph::text(&mut random, &program, change);
        let mut other = one.clone();
        remarks::noise(&mut random, &mut other);
        assert_eq!(judged(&quiet, &one), judged(&loud, &other), "{}", other.escape_ascii());
    }
    assert!(!share::whole() || with_both >= 500, "{with_both} files with both");
}

/// What is printed is lower case, whatever was read.
#[test]
fn printed_in_lower_case() {
    let file = lines(ALIKE).to_ascii_uppercase();
    let mut out = vec![0; GRAPH];
    let Answer::Answered(length) = calls::graph(&file, &[2, 0, 1, 3], &mut out) else { panic!("a full schedule") };
    assert!(out[..length as usize].iter().all(|c| !c.is_ascii_uppercase()), "{}", out[..length as usize].escape_ascii());
    assert!(out[..length as usize].windows(4).any(|w| w == b"ffff"), "a read from the initial write");
}

/// The decided readings, by their numbers, and what stands at the edges.
#[test]
fn decided_readings() {
    let long = [b"#".to_vec(), vec![b'x'; 4_094], b"\n".to_vec()].concat();
    let table: [(&str, &[u8], Answer); 16] = [
        ("32: a space in front of `#`", b"01\n #\n", Answer::Refused(2, 2)),
        ("32: `#` behind digits", b"01#\n", Answer::Refused(2, 1)),
        ("32: a remark without its 0a", b"01\n# done", Answer::Refused(2, 2)),
        ("32: `#` alone and its 0a", b"01\n#\n", ACCEPTED),
        ("32: `#` alone", b"#", Answer::Refused(2, 1)),
        ("9: skips count instructions, not remarks", b"01\n2200000000000001\n# over\n110000\n", ACCEPTED),
        ("9: a skip beyond the end, with a remark behind it", b"# a\n01\n# b\n2200000000000001\n# c\n", Answer::Refused(7, 4)),
        ("7: 4,096 bytes of one remark", &long, ACCEPTED),
        ("only remarks: no thread", b"#\n# 01\n#\n", ACCEPTED),
        ("3 behind remarks", b"#\n01\n#\nff\n", Answer::Refused(3, 4)),
        ("4 behind remarks", b"#\n01\n#\n110400\n", Answer::Refused(4, 4)),
        ("5 behind remarks", b"#\n#\n110000\n", Answer::Refused(5, 3)),
        ("6 behind remarks", b"01\n01\n01\n#\n01\n01\n01\n#\n01\n", Answer::Refused(6, 9)),
        ("8 behind remarks, between `02` lines", b"01\n01\n#\n020001\n#\n020001\n", Answer::Refused(8, 6)),
        ("an empty line is no remark", b"01\n\n", Answer::Refused(2, 2)),
        ("0d does not end a remark", b"#\r01\n", ACCEPTED),
    ];
    for (name, file, answer) in table {
        assert_eq!(check(file), answer, "the library on {name}");
        let oracle = decode(file).map_or_else(|r| Answer::Refused(r.number, r.place), |_| ACCEPTED);
        assert_eq!(oracle, answer, "the oracle on {name}");
    }
    let texts: [(&str, &[u8], Answer); 6] = [
        ("32: a space in front of `#`", b"#\n #\n", Answer::Refused(30, 2)),
        ("32: a remark without its 0a", b"# done", Answer::Refused(30, 1)),
        ("30: only remarks: no line to read", b"#\n# 40\n", Answer::None),
        ("31 behind remarks", b"#\n#\n42\n", Answer::Refused(31, 3)),
        ("32 behind remarks", b"#\n400200ffff\n", Answer::Refused(32, 2)),
        ("33 behind remarks", b"400101FFFF\n#\n400001ffff\n", Answer::Refused(33, 3)),
    ];
    let pair = lines(PAIR);
    for (name, text, answer) in texts {
        assert_eq!(judged(&pair, text).0, answer, "the library on {name}");
        let oracle = match judge(&pair, text, SCHEDULE) {
            Ok(Some(steps)) => Answer::Answered(steps.len() as u64),
            Ok(None) => Answer::None,
            Err(r) => Answer::Refused(r.number, r.place),
        };
        assert_eq!(oracle, answer, "the oracle on {name}");
    }
    assert_eq!(judged(&lines("01"), b"# the empty graph\n").0, Answer::Answered(0));
    // a file of only remarks is the program of no thread
    for remarks in [&long[..], b"#\n# 01\n#\n", b"#\r01\n"] {
        assert!(list(remarks) == list(b""), "{}", remarks.escape_ascii());
        assert_eq!(judged(remarks, b"# no line\n"), judged(b"", b""));
    }
    assert_eq!(read("examples/whole-with-remarks.hex").iter().filter(|&&c| c == b'#').count(), 3);
    assert!(list(&read("examples/whole-with-remarks.hex")) == list(&read("examples/whole.hex")));
}
