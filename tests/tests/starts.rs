//! Request e: memory starts with the values of `03` lines, in runs and in the judge, and 40 refuses such a line after a thread or a `02`
//! line or a second time for its location.
use tarczolin_tests::calls::{self, check, Answer, SCHEDULE};
use tarczolin_tests::files::lines;
use tarczolin_tests::lent::held;
use tarczolin_tests::oracle::calls::judge;
use tarczolin_tests::oracle::decode::decode;
use tarczolin_tests::oracle::graph::Graph;
use tarczolin_tests::oracle::machine::{every_full, Machine};
use tarczolin_tests::random::Random;

const ACCEPTED: Answer = Answer::Answered(0);

/// A compare and swap of 1 to 2 at location 0 beside a load there.
const SWAP: &str = "01 13000000000000010000000002 01 110000";

/// Library and oracle on one file.
fn answer(file: &[u8]) -> Answer {
    let said = match decode(file) {
        Ok(_) => ACCEPTED,
        Err(r) => Answer::Refused(r.number, r.place),
    };
    assert_eq!(check(file), said, "{}", file.escape_ascii());
    said
}

fn counts(file: &[u8]) -> (u64, u64) {
    let (mut listed, mut failing) = (0, 0);
    assert_eq!(calls::count(file, &mut listed, &mut failing), ACCEPTED);
    (listed, failing)
}

#[test]
fn refusals_by_the_decided_readings() {
    let table = [
        ("after a thread", "01 030000000000", Answer::Refused(40, 2)),
        ("its own range first", "01 030800000000", Answer::Refused(4, 2)),
        ("its own length first", "01 0308000000", Answer::Refused(3, 2)),
        ("a length above", "03000000000000", Answer::Refused(3, 1)),
        ("out of range in front", "030900000000", Answer::Refused(4, 1)),
        ("after a 02 line", "01 01 020001 030000000000", Answer::Refused(40, 4)),
        ("twice with the same value", "030100000005 030100000005", Answer::Refused(40, 2)),
        ("twice with another value", "030100000005 030200000005 030100000000 01", Answer::Refused(40, 3)),
        ("only 03 lines", "030100000005 0300ffffffff", ACCEPTED),
        ("all eight, falling", "0307 0306 0305 0304 0303 0302 0301 0300", ACCEPTED),
        ("an instruction behind it", "030000000001 110000", Answer::Refused(5, 2)),
        ("a 02 line behind it", "030000000001 020001", Answer::Refused(8, 2)),
        ("7 behind all lines", "030000000001 01 2200000000000001", Answer::Refused(7, 3)),
    ];
    for (name, words, expected) in table {
        let whole =
            |word: &str| if word.len() == 4 && word.starts_with("03") { format!("{word}00000009") } else { word.to_string() };
        let words: Vec<String> = words.split(' ').map(whole).collect();
        assert_eq!(answer(&lines(&words.join(" "))), expected, "{name}");
    }
}

/// A `03` line at each place of a file with remarks, for l from 0 to 9, once and twice.
#[test]
fn every_place_and_location() {
    let file = "030200000001\n# a remark\n01\n110000\n#03\n01\n110000\n020001\n# the end\n";
    let all: Vec<&str> = file.split_inclusive('\n').collect();
    let mut seen = std::collections::BTreeMap::new();
    for l in 0..10 {
        let line = format!("03{l:02x}000000A{l}\n");
        for first in 0..=all.len() {
            let mut once = all.clone();
            once.insert(first, &line);
            for second in (0..=once.len()).map(Some).chain([None]) {
                let mut twice = once.clone();
                second.into_iter().for_each(|at| twice.insert(at, &line));
                *seen.entry(answer(twice.concat().as_bytes())).or_insert(0) += 1;
            }
        }
    }
    assert!(seen[&ACCEPTED] >= 14, "{seen:?}");
    let refused = |number| seen.keys().filter(|a| matches!(a, Answer::Refused(n, _) if *n == number)).count();
    assert!(refused(40) >= 9 && refused(4) >= 9, "{seen:?}");
}

/// The swap finds the starting value, so that it writes; without it the list has one member.
#[test]
fn runs_start_there() {
    assert_eq!(counts(&lines(SWAP)), (1, 0));
    assert_eq!(counts(&lines(&format!("030000000001 {SWAP}"))), (2, 0));
    assert_eq!(counts(&lines(&format!("030000000001 {SWAP} 23000000000001"))), (2, 1));
    assert_eq!(counts(&lines("0300ffffffff 01 1200000000000001 2300000fffffff")), (1, 1), "an assertion of another value fails");
    let wraps = lines("0300ffffffff 01 1200000000000001 230000ffffffff 110100 23010000000000");
    assert_eq!(counts(&wraps), (1, 0), "adding 1 to ffffffff gives 0");
}

/// The judge's initial write carries the value: graphs that only that value makes.
#[test]
fn the_judge_knows_them() {
    let ask = |file: &str, text: &str| {
        let (file, text) = (lines(file), lines(text));
        let found = judge(&file, &text, SCHEDULE);
        held(&mut Random::new(41), [&file, &text], SCHEDULE, &found, |[file, text], out| calls::judge(file, text, out));
        found.unwrap()
    };
    let started = format!("030000000001 {SWAP}");
    let both = "400000ffff 400100ffff";
    assert_eq!(ask(&started, &format!("{both} 41000000")), Some(vec![1, 0]), "it carries 1, and the swap writes");
    assert_eq!(ask(&started, both), None, "a swap that succeeds writes");
    assert_eq!(ask(SWAP, both), Some(vec![0, 1]), "it carries 0, and the swap only reads");
    assert_eq!(ask(SWAP, &format!("{both} 41000000")), None);
    // the second read's place depends on the first's value, which is that of location 2
    let choose = "01 110002 2200000000000701 110101 110203";
    let reads = "400000ffff 400001ffff 400002ffff";
    assert_eq!(ask(&format!("030200000007 {choose}"), reads), Some(vec![0, 0, 0]));
    assert_eq!(ask(choose, reads), None, "with 0 there the second load is skipped");
}

/// Where a read goes depends on the starting value, and a store must wait for it.
#[test]
fn a_store_waits_for_a_read() {
    let file = lines("030200000007 01 10010000000005 01 110002 2200000000000701 110101 110203");
    let text = lines("400100ffff 400101ffff 400102ffff 41010000");
    let mut out = [0xee; SCHEDULE];
    assert_eq!(calls::judge(&file, &text, &mut out), Answer::Answered(4));
    assert_eq!(out[..5], [1, 1, 0, 1, 0xee]);
}

/// Every graph of a program with starting values is judged yes, by the least schedule that has it.
#[test]
fn every_graph_of_a_program() {
    let file =
        lines("030100000002 030000000001 01 1200000000000002 10010100000000 01 13000000000000010000000003 110101 01 110001");
    let program = decode(&file).unwrap();
    let mut graphs: Vec<(Graph, Vec<u8>)> = Vec::new();
    every_full(&Machine::new(&program), &mut Vec::new(), &mut |schedule, machine| {
        let graph = Graph::of(machine);
        if !graphs.iter().any(|(one, _)| *one == graph) {
            graphs.push((graph, schedule.to_vec()));
        }
        false
    });
    assert_eq!(graphs.len(), 8);
    for (graph, least) in graphs {
        let mut out = vec![0; SCHEDULE];
        let said = calls::judge(&file, &graph.text(), &mut out);
        assert_eq!((said, &out[..least.len()]), (Answer::Answered(least.len() as u64), &least[..]));
    }
}
