//! outcomes: what it prints, which conditions it takes, and that no end of any execution is missed.
mod common;

use common::json::{parse, Value};
use common::{run, run_with};
use std::collections::BTreeSet;
use tarczolin::outcome::Final;
use tarczolin::program::Program;
use tarczolin_tests::files::{lines, text};
use tarczolin_tests::oracle::decode::decode;
use tarczolin_tests::random::ends::mixing;
use tarczolin_tests::random::program::{frames, SMALL};
use tarczolin_tests::random::{schedule, Random};
use tarczolin_tests::share;

const QUEUE: &str = "examples/queue-broken.asm";

const FURTHER: &str = "(--registers: with registers; --count: how many executions end so)\n";
const WALKED: &str =
    "(how executions end, and how many, is found by plain Rust over the list, which is not proved; the list is)\n";

/// Final memory and whether it fails, by the library: no register tells two ends apart.
#[test]
fn each_outcome_once() {
    let shown = "\
outcome 1: first 0001
memory     x0 = 1

outcome 2: first 0100, fails
memory     x0 = 1

2 outcomes, 1 failing
";
    let ran = run(&["outcomes", "examples/load-assert-beside-store.hex"]);
    assert_eq!((ran.status, ran.out), (1, format!("{shown}{FURTHER}")));
    let ran = run(&["outcomes", "examples/load-assert-beside-store.hex", "--where", "!fails"]);
    let matching = "outcome 1: first 0001\nmemory     x0 = 1\n\n1 of 2 outcomes matches\n";
    assert_eq!((ran.status, ran.out), (1, format!("{matching}{FURTHER}")));
    let ran = run(&["outcomes", "examples/load-assert-beside-store.hex", "--where", "x0 = 0"]);
    assert_eq!((ran.status, ran.out), (0, format!("0 of 2 outcomes match\n{FURTHER}")));
    assert_eq!(run(&["outcomes", "examples/whole.hex"]).status, 0);
}

/// With how many end so the same are told, by a walk over the list.
#[test]
fn each_outcome_counted() {
    let shown = "\
outcome 1: 1 listed, 2 in all, first 00000101020202
memory     tail = 3, slot1 = 7, slot2 = 7

outcome 2: 3 listed, 6 in all, first 00000102020201, fails
memory     tail = 3, slot1 = 7, slot2 = 7

2 outcomes, 6 listed, 3 failing, 12 in all
";
    let ran = run(&["outcomes", QUEUE, "--count"]);
    let listed = ran.out.replacen("outcome 1: 3 listed, 6 in all", "outcome 1: 1 listed, 2 in all", 1);
    assert_eq!((ran.status, listed), (1, format!("{shown}{WALKED}")));
}

/// The list walked by jobs, the list counted, and the library's call have the same outcomes, first schedules and exit status; with registers there
/// are no others.
#[test]
fn the_call_and_the_walks() {
    let mut random = Random::new(0x6f75);
    let mut many = 0;
    for k in 0..share::of(120) {
        let file = if k % 4 < 2 { mixing(&mut random) } else { text(&frames(&mut random, SMALL)) };
        let model = ["sc", "tso"][k % 2];
        let told = |options: &[&str]| {
            let ran = run_with(&[&["outcomes", "-", "--model", model, "--json"], options].concat(), &file);
            let all: Vec<Value> = ran.out.lines().map(parse).filter(|one| one.get("outcome").is_some()).collect();
            let fields = |one: &Value| ["schedule", "fails", "memory"].map(|name| one.get(name).cloned());
            (ran.status, all.iter().map(fields).collect::<Vec<_>>())
        };
        let called = told(&[]);
        assert_eq!(told(&["--jobs", "2"]), called, "{}", file.escape_ascii());
        assert_eq!(told(&["--count"]), called, "{}", file.escape_ascii());
        let (status, with) = told(&["--registers"]);
        let firsts = with.iter().fold(Vec::new(), |mut all: Vec<[Option<Value>; 3]>, one| {
            if !all.iter().any(|known| known[1..] == one[1..]) {
                all.push(one.clone());
            }
            all
        });
        assert_eq!((status, firsts), called, "{}", file.escape_ascii());
        many += (called.1.len() > 1) as usize;
    }
    assert!(!share::whole() || many > 15, "{many}");
}

/// A list that nobody walks: its outcomes are there at once, also where they are asked about.
#[test]
fn beyond_every_walk() {
    let adds = format!("01 {}", "1200000000000001 ".repeat(4)).repeat(6);
    let ran = run_with(&["outcomes", "-", "--where", "x0 = 24"], &lines(&adds));
    let first = "00".repeat(4) + &"01".repeat(4) + &"02".repeat(4) + &"03".repeat(4) + &"04".repeat(4) + &"05".repeat(4);
    let shown = format!("outcome 1: first {first}\nmemory     x0 = 24\n\n1 of 1 outcome matches\n{FURTHER}");
    assert_eq!((ran.status, ran.out), (1, shown));
    let text = "thread t * 6\n  repeat 4 {\n    n = fetch_add x 1\n  }\nforall x = 24\nforbid x = 23\nexpect none\n";
    let ran = run_with(&["check", "-", "--model", "sc"], text.as_bytes());
    assert_eq!((ran.status, ran.out.matches(": holds: ").count()), (0, 3), "{}{}", ran.out, ran.err);
}

/// Conditions of registers, and of the failure of one thread, walk the list, and that is told.
#[test]
fn what_needs_registers() {
    let told = format!(
        "tarczolin: {QUEUE}: the condition speaks of registers or of one thread's failure: as with --registers, the list is walked\n"
    );
    for condition in ["consumer.item = 0", "tail = 3 & !(consumer.fails)", "tail = 3 | first.mine = 1"] {
        let ran = run(&["outcomes", QUEUE, "--where", condition]);
        assert_eq!((ran.status, ran.err.as_str()), (1, told.as_str()), "{condition}");
        let asked = run(&["outcomes", QUEUE, "--where", condition, "--registers"]);
        assert_eq!((asked.status, asked.out.as_str(), asked.err.as_str()), (1, ran.out.as_str(), ""), "{condition}");
        assert!(ran.out.ends_with(WALKED) && ran.out.contains("\nregisters  "), "{}", ran.out);
    }
    for condition in ["tail = 3", "tail = 3 & fails | !true", "tail = slot1"] {
        let ran = run(&["outcomes", QUEUE, "--where", condition]);
        assert!(ran.err.is_empty() && !ran.out.contains("registers  "), "{condition}: {}{}", ran.out, ran.err);
    }
}

/// With registers ends are told apart as before.
#[test]
fn each_end_once() {
    let shown = "\
outcome 1: 1 listed, first 0001
memory     x0 = 1
registers  T0.r0 = 0

outcome 2: 1 listed, first 0100
memory     x0 = 1
registers  T0.r0 = 1
fails      T0: assert r0 == 0 FAILS: r0 = 1 (instruction 1)

2 outcomes, 2 listed, 1 failing
";
    let ran = run(&["outcomes", "examples/load-assert-beside-store.hex", "--registers"]);
    assert_eq!((ran.status, ran.out), (1, format!("{shown}{WALKED}")));
    assert_eq!(run(&["outcomes", "examples/whole.hex", "--registers"]).status, 0);
    let by = |options: &[&str]| run(&[&["outcomes", QUEUE, "--registers"], options].concat());
    assert_eq!(by(&["--jobs", "3"]), by(&[]));
    assert_eq!(by(&["--count"]), by(&[]), "how many end so is told with registers in any case");
}

/// "Can this happen?" by the exit status.
#[test]
fn conditions() {
    let status = |condition: &str| run(&["outcomes", QUEUE, "--where", condition]).status;
    assert_eq!(status("tail=3 & consumer.item=0"), 1);
    assert_eq!(status("tail = 3 & T2.r1 = 0"), 1);
    assert_eq!(status("tail = 2"), 0);
    assert_eq!(status("!(tail = 3)"), 0);
    assert_eq!(status("tail != 3 | slot1 == 0x7 & slot2 = 7"), 1);
    assert_eq!(status("consumer.fails"), 1);
    assert_eq!(status("first.fails | second.fails"), 0);
    assert_eq!(status("fails & consumer.item = 7"), 0);
    assert_eq!(status("first.mine = second.mine"), 0);
    for wrong in
        ["tial = 2", "tail", "tail =", "(tail = 3", "tail = 3 )", "T9.r0 = 1", "T0.q = 1", "tail ? 1", "tail = 99999999999"]
    {
        let ran = run(&["outcomes", QUEUE, "--where", wrong]);
        assert!(ran.status == 2 && ran.err.contains("--where"), "{wrong}: {}", ran.err);
    }
    assert!(run(&["outcomes", QUEUE, "--where", "tial = 2"]).err.contains("is it tail?"));
}

/// An end without a step; words that hold of every end; and a name that only some of several files have.
#[test]
fn small_ends_and_several_files() {
    let ran = run_with(&["outcomes", "-"], b"01\n");
    assert_eq!(ran.out, format!("outcome 1: first (no step)\n\n1 outcome, 0 failing\n{FURTHER}"));
    let ran = run_with(&["outcomes", "-", "--registers"], b"01\n");
    assert_eq!(ran.out, format!("outcome 1: 1 listed, first (no step)\n\n1 outcome, 1 listed, 0 failing\n{WALKED}"));
    assert_eq!(run(&["outcomes", QUEUE, "--where", "true & !false"]).status, 1);
    let named = b"thread\n  store true 1\n  store fails 1\n";
    assert_eq!(run_with(&["outcomes", "-", "--where", "true = 1 & fails != 0 & !fails"], named).status, 1);
    let files = ["examples/whole.hex", QUEUE];
    let ran = run(&[&["outcomes"], &files[..], &["--where", "tail = 3"]].concat());
    assert_eq!(ran.status, 2);
    assert_eq!(ran.err, "tarczolin: examples/whole.hex: --where: there is no location tail\n");
    assert!(ran.out.starts_with(&format!("==> {QUEUE} <==\noutcome 1: ")), "{}", ran.out);
}

/// Only one of two alike executions is listed, and the other can happen as well.
#[test]
fn alike_threads_exchanged() {
    let ran = run(&["outcomes", QUEUE, "--where", "second.mine = 1 & first.mine = 2"]);
    assert_eq!(ran.status, 1, "the list has only first.mine = 1");
    assert!(ran.out.contains("with alike threads exchanged\n") && ran.out.contains("second.mine = 1"), "{}", ran.out);
    let first = ran.out.lines().next().unwrap().split("first ").nth(1).unwrap().split(',').next().unwrap().to_string();
    let shown = run(&["show", QUEUE, &first]).out;
    assert!(shown.contains("first.mine = 2, second.mine = 1"), "the schedule ends as it is said: {shown}");
}

/// On random programs: the end of any full schedule matches a condition that asks for it, whatever is alike.
#[test]
fn no_end_is_missed() {
    let mut random = Random::new(101);
    for _ in 0..share::of(150) {
        let file = text(&frames(&mut random, SMALL));
        let program = Program::of_accepted(&file);
        let steps = schedule::full(&mut random, &decode(&file).unwrap());
        let end = Final::of(&program, &steps.iter().copied().collect());
        let mut terms: Vec<String> = (0..8).map(|l| format!("x{l}={}", end.memory[l])).collect();
        for t in program.numbers() {
            terms.extend((0..4).map(|r| format!("T{t}.r{r}={}", end.registers[t as usize][r])));
            let not = if end.failed[t as usize].is_some() { "" } else { "!" };
            terms.push(format!("{not}T{t}.fails"));
        }
        let ran = run_with(&["outcomes", "-", "--where", &terms.join(" & ")], &file);
        assert_eq!(ran.status, 1, "{}\n{terms:?}\n{}", file.escape_ascii(), ran.err);
    }
}

/// Each listed schedule ends in one of the outcomes, and no two of these are the same.
#[test]
fn outcomes_of_the_list() {
    let file = lines("01 1200000000000001 10010100000000 01 1200000000000001 110101 01 110100");
    let program = Program::of_accepted(&file);
    let listed = run_with(&["list", "-"], &file).out;
    let schedules = listed.lines().filter_map(|line| line.strip_prefix("5000"));
    let steps = |digits: &str| digits.as_bytes().chunks(2).map(|pair| pair[1] - b'0').collect();
    let ends: BTreeSet<Final> = schedules.map(|digits| Final::of(&program, &steps(digits))).collect();
    let ran = run_with(&["outcomes", "-", "--registers"], &file).out;
    let last = ran.lines().rev().nth(1).unwrap();
    assert!(last.starts_with(&format!("{} outcomes, {} listed", ends.len(), listed.lines().count() - 1)), "{last}");
}

/// Conditions of any depth and length are answered or refused in words.
#[test]
fn deep_and_long_conditions() {
    let asked = |condition: &str| run(&["outcomes", "examples/whole.hex", "--where", condition]);
    let nested = |depth: usize| format!("{}x0=1{}", "(".repeat(depth), ")".repeat(depth));
    assert_eq!(asked(&nested(100)).status, 1);
    for condition in [nested(101), nested(20_000), "(".repeat(60_000), format!("{}x0=1", "!".repeat(60_000))] {
        let ran = asked(&condition);
        assert_eq!((ran.status, ran.out.as_str()), (2, ""));
        assert!(ran.err.contains("--where: more than 100 brackets and ! stand inside each other"), "{}", ran.err);
    }
    for sign in ["&", "|"] {
        let ran = asked(&vec!["x0=1"; 20_000].join(sign));
        assert!(ran.status == 1 && ran.out.contains("1 of 1 outcome matches\n"), "{}{}", ran.out, ran.err);
    }
}
