//! The counterexample one wants: the one with the fewest changes of thread, and from where its failure comes.
mod common;

use common::json::{parse, Value};
use common::{run, run_with};

fn why(words: &[&str], text: &str) -> Vec<String> {
    let ran = run_with(words, text.as_bytes());
    assert_eq!(ran.status, 1, "{}{}", ran.out, ran.err);
    assert!(ran.out.contains("(traced back from the assertion by plain Rust, which is not proved)"), "{}", ran.out);
    ran.out.lines().filter_map(|line| line.strip_prefix("why        ").map(str::to_string)).collect()
}

#[test]
fn which_read_saw_what() {
    let queue = run(&["violation", "--show", "examples/queue-broken.asm"]);
    let wanted =
        "why        consumer's load slot2 (#2) saw the initial 0 and missed second's store slot2 = 7 (#1), which comes later\n";
    assert!(queue.out.contains(wanted), "{}", queue.out);
    let show = &["violation", "--show", "-"][..];
    let two = "thread w\n  store a 1\n  store b 1\nthread r\n  n = load b\n  m = load a\n  n += m\n  k = n\n  assert k != 2\n";
    let told = why(show, two);
    assert_eq!(
        told,
        [
            "r's load b (#0) saw 1 of w's store b = 1 (#1), the last write of b",
            "r's load a (#1) saw 1 of w's store a = 1 (#0), the last write of a"
        ]
    );
    let registers = "thread w\n  store a 5\nthread r\n  n = load a\n  m = load b\n  assert n != m\n";
    assert_eq!(why(show, registers).len(), 2, "both registers of a statement that takes several instructions");
    let fails = "thread w\n  store a 1\nthread r\n  n = load a\n  if n == 0 goto end\n  fail\nend:\n";
    assert_eq!(why(show, fails), ["r's load a (#0) saw 1 of w's store a = 1 (#0), the last write of a"]);
    assert_eq!(why(show, "thread r\n  n = 1\n  assert n == 0\n"), ["r fails whatever it reads"]);
}

/// Under total store order what is missed may be pending.
#[test]
fn a_pending_write_is_missed() {
    let ran = run(&["violation", "--show", "examples/suite/dekker.asm", "--model", "tso"]);
    assert_eq!(ran.status, 1);
    assert!(
        ran.out.contains("why        right's fetch_add inside (#2) saw 1 of left's fetch_add inside = 1 (#2)"),
        "{}",
        ran.out
    );
    let text = "thread a\n  store x 1\n  n = load y\n  store p n\nthread b\n  store y 1\n  n = load x\n  m = load p\n  n += m\n  assert n != 0\n";
    let ran = run_with(&["violation", "--show", "-", "--model", "tso"], text.as_bytes());
    assert!(
        ran.out.contains("b's load x (#1) saw the initial 0 and missed a's store x = 1 (#0), which was pending still"),
        "{}",
        ran.out
    );
}

/// Of the listed failing ones none has fewer, by the list itself.
#[test]
fn fewest_changes_of_thread() {
    let text = "thread a\n  store x 1\n  store y 1\n  store x 2\nthread b\n  n = load y\n  m = load x\n  assert n == 0\n";
    let list = run_with(&["list", "-"], text.as_bytes());
    let failing = list.out.lines().filter(|line| line.starts_with("5001")).map(|line| &line[4..]);
    let steps = |schedule: &str| schedule.as_bytes().chunks(2).map(<[u8]>::to_vec).collect::<Vec<_>>();
    let changes = |schedule: &str| steps(schedule).windows(2).filter(|pair| pair[0] != pair[1]).count();
    let least = failing.clone().map(changes).min().unwrap();
    let best = failing.clone().find(|schedule| changes(schedule) == least).unwrap();
    let first = failing.clone().next().unwrap();
    let ran = run_with(&["violation", "--fewest", "switches", "-", "--json"], text.as_bytes());
    let answer = parse(ran.out.trim_end());
    assert_eq!(ran.status, 1);
    assert_eq!(answer.get("violation"), Some(&Value::Text(first.to_string())));
    assert_eq!(answer.get("fewest"), Some(&Value::Text(best.to_string())));
    assert_eq!(answer.get("fewest_switches"), Some(&Value::Number(least as i64)));
    assert_eq!(answer.get("failing"), Some(&Value::Number(failing.count() as i64)));
    let ran = run_with(&["violation", "--fewest", "switches", "-"], text.as_bytes());
    assert!(
        ran.out.starts_with(&format!("first   {first}, ")) && ran.out.contains(&format!("\nfewest  {best}, ")),
        "{}",
        ran.out
    );
    assert!(ran.out.contains("by plain Rust over the list, which is not proved"), "{}", ran.out);
}

#[test]
fn its_edges() {
    let none = run_with(&["violation", "--fewest", "switches", "-"], b"thread\n  store x 1\n");
    assert_eq!((none.status, none.out.as_str()), (0, "none\n"));
    let word = run_with(&["violation", "--fewest", "steps", "-"], b"thread\n  fail\n");
    assert_eq!(word.status, 2);
    assert!(word.err.contains("--fewest takes the word switches, not steps"), "{}", word.err);
    let limit = run(&["violation", "--fewest", "switches", "--limit", "2", "examples/queue-broken.asm"]);
    assert_eq!(limit.status, 2);
    assert!(limit.err.contains("not decided: more than 2 are listed"), "{}", limit.err);
}
