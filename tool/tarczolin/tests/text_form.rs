//! The text form from end to end: what statements do when they run, names in every answer, all errors in one run, warnings.
mod common;

use common::{folder, run, run_with, without_statements};
use tarczolin::asm::assemble;
use tarczolin::execution::Execution;
use tarczolin::program::Program;

/// Runs a text of one thread: the value of x7 at the end, and whether it fails. x7 is location 7, whatever has names.
fn ran(body: &str) -> (u32, bool) {
    let form = format!("thread\n{body}");
    let made = assemble(form.as_bytes()).unwrap_or_else(|marks| panic!("{form}\n{marks:?}"));
    let program = Program::of_accepted(&made.file).named(&made.names);
    let accesses = program.threads[0].iter().filter(|i| i.access().is_some()).count();
    // the schedule is as long as the run does accesses
    let full = (0..=accesses).find_map(|n| Execution::replayed(&made.file, &program, &vec![0; n]).ok());
    let execution = full.expect("a full schedule");
    (execution.memory[7], execution.fails)
}

const VALUES: [u32; 6] = [0, 1, 2, 0x7fff_ffff, 0x8000_0000, 0xffff_ffff];

/// Every condition on every pair of values, the operand a number or a register: what the condition says is what happens.
#[test]
fn conditions_and_jumps() {
    for v in VALUES {
        for k in VALUES {
            for (set, operand) in [(String::new(), k.to_string()), (format!("r1 = {k}\n"), "r1".to_string())] {
                let front = format!("r0 = {v}\n{set}");
                let holds = |sign: &str| match sign {
                    "==" => v == k,
                    "!=" => v != k,
                    "<=" => v as i32 <= k as i32,
                    ">" => v as i32 > k as i32,
                    "<" => (v as i32) < k as i32,
                    _ => v as i32 >= k as i32,
                };
                for sign in ["==", "!=", "<=", ">", "<", ">="] {
                    if k == 0x8000_0000 && set.is_empty() && ["<", ">="].contains(&sign) {
                        continue;
                    }
                    let jump = ran(&format!("{front}if r0 {sign} {operand} goto there\nstore x7 5\nthere:\n"));
                    assert_eq!(jump, (if holds(sign) { 0 } else { 5 }, false), "if {v} {sign} {operand} goto");
                    let skip = ran(&format!("{front}if r0 {sign} {operand} skip 2\nstore x7 5\nr2 = 1\nr3 = 1"));
                    assert_eq!(skip, jump, "if {v} {sign} {operand} skip");
                    let assert = ran(&format!("{front}assert r0 {sign} {operand}\nstore x7 9"));
                    assert_eq!(assert, if holds(sign) { (9, false) } else { (0, true) }, "assert {v} {sign} {operand}");
                }
            }
        }
        assert_eq!(ran(&format!("r0 = {v}\nfail\nstore x7 1")), (0, true), "fail");
        assert_eq!(ran(&format!("r0 = {v}\ngoto there\nstore x7 1\nr1 = 2\nthere:\nr2 = 1\nstore x7 r0")), (v, false), "goto");
    }
}

/// Jumps over jumps, to the next statement, to the end; a skip goes over statements, whatever these take.
#[test]
fn jumps_of_every_length() {
    assert_eq!(ran("goto here\nhere:\nstore x7 1"), (1, false));
    assert_eq!(ran("if r0 == 0 goto a\ngoto b\na: store x7 3\nb:"), (3, false));
    assert_eq!(ran("r0 = 1\nif r0 == 0 goto a\ngoto b\na: store x7 3\nb:"), (0, false));
    assert_eq!(ran("if r0 == 0 skip 2\nassert r0 != 0\nfail\nstore x7 4"), (4, false));
    assert_eq!(ran("const FOUR = 0x4\nconst ALSO = FOUR\nr0 = -1\nr0 += 1\nr0 += ALSO\nstore x7 r0"), (4, false));
}

const SLIPS: &str = "\
thread producer
  mine = fetch_add tail 1
  store slto 7
  goto nowhere
  assert mnie == 1
thread consumer
  stor slot 1
  item = load slot
  if item =< 7 skip 1
alike producer consumr
";

/// All that is wrong, in one run, each with line, column and a mark.
#[test]
fn all_errors_at_once() {
    let ran = run_with(&["count", "-"], SLIPS.as_bytes());
    assert_eq!((ran.status, ran.out.as_str()), (2, ""));
    let places: Vec<&str> = ran.err.lines().filter(|line| line.contains("standard input:")).collect();
    let wanted = [
        "4:8: there is no label nowhere",
        "5:10: a register",
        "7:3: a statement",
        "9:11: ==, !=, <=, >, < or >= is expected here, not =<",
        "10:16: a thread",
    ];
    assert_eq!(places.len(), wanted.len(), "{}", ran.err);
    for (place, words) in places.iter().zip(wanted) {
        assert!(place.contains(&format!("standard input:{words}")), "{place}: {words}");
    }
    assert!(ran.err.contains("     5 |   assert mnie == 1\n       |          ^"), "{}", ran.err);
    assert!(places[1].contains("is it mine?"));
}

#[test]
fn warnings() {
    let form = "thread\n  store slot 7\n  r0 = load slot\n  store slto 1\n  r1 = load head\nend:\n";
    let ran = run_with(&["check", "-"], form.as_bytes());
    assert!(ran.status == 0 && ran.out.starts_with("accepted: "), "{}", ran.out);
    let said: Vec<&str> = ran.err.lines().filter(|line| line.contains("warning")).collect();
    assert_eq!(said.len(), 3, "{}", ran.err);
    assert!(said[0].contains("4:9: warning: slto is written only here, and there is slot"), "{}", said[0]);
    assert!(said[1].contains("5:13: warning: head is read and never written"), "{}", said[1]);
    assert!(said[2].contains("6:1: warning: no jump goes to end"), "{}", said[2]);
    let twice = run_with(&["check", "-"], b"thread\n  store slot 7\n  n = load slto\n").err;
    assert!(
        twice.contains("3:12: warning: slto is read and never written; is it slot?") && twice.lines().count() == 3,
        "{twice}"
    );
    let short = run_with(&["check", "-"], b"thread\n  store x 1\n  n = load y\nthread\n  store y 1\n  n = load x\n");
    assert_eq!(short.err, "", "x and y are meant to differ");
    let quiet = run(&["check", "examples/queue-broken.asm"]);
    assert_eq!(quiet.err, "", "slot1 and slot2 are meant to differ");
}

/// A statement that would pass the limit of a thread, and a jump backwards: errors that say so.
#[test]
fn what_instructions_cannot_do() {
    let ran = run_with(&["check", "-"], format!("thread\n{}", "  fail\n".repeat(9)).as_bytes());
    let said = ":10:3: this is instruction number 17 of its thread; a thread has at most 16; lines 2 to 10 take 2 each\n";
    assert!(ran.status == 2 && ran.err.contains(said), "{}", ran.err);
    let ran = run_with(&["check", "-"], b"thread\nagain:\n  n = load x\n  if n == 0 goto again\n");
    assert!(ran.status == 2 && ran.err.contains(":4:18: again stands above, in line 2: jumps go forward only"), "{}", ran.err);
}

/// A byte order mark and carriage returns, as some editors write them; a sign inside of a number.
#[test]
fn what_editors_leave() {
    let ran = run_with(&["check", "-"], b"\xef\xbb\xbfthread\r\n  store x 1\r\n  r0 = load x\r\n");
    assert!(ran.is_accepted(), "{ran:?}");
    let ran = run_with(&["check", "-"], b"\xef\xbb\xbfthread\n  r0 = 0x-5\n");
    assert!(ran.status == 2 && ran.err.contains(":2:8: 0x-5 is no number of 32 bits"), "{}", ran.err);
}

/// Every command takes a text as it is, by the name of its file or by what stands in it.
#[test]
fn every_command_takes_a_text() {
    let (form, file) = ("examples/queue-broken.asm", "examples/queue-broken.hex");
    for command in ["list", "count", "violation", "check"] {
        assert_eq!(run(&[command, form]), run(&[command, file]), "{command}");
    }
    let bytes = std::fs::read(tarczolin_tests::files::path(form)).unwrap();
    assert_eq!(run_with(&["list", "-"], &bytes), run(&["list", file]));
    let schedule = "00000102020201";
    assert_eq!(run(&["graph", form, schedule]), run(&["graph", file, schedule]));
    let graph = run(&["graph", form, schedule]).out;
    assert_eq!(run_with(&["judge", form, "-"], graph.as_bytes()).out, format!("yes {schedule}\n"));
    // a name that tells, and content that does not
    let empty = folder("text_form").join("empty.asm");
    std::fs::write(&empty, "# nothing\n").unwrap();
    let ran = run(&["check", &empty.display().to_string()]);
    assert!(ran.is_accepted(), "a text without a thread: {ran:?}");
}

#[test]
fn names_in_columns_page_messages_and_disasm() {
    let form = "examples/queue-broken.asm";
    let columns = run(&["show", form, "--only", "failing"]).out;
    assert!(
        columns.contains("#0   consumer  load tail -> filled = 3                 second fetch_add #0  23 | filled = load tail\n"),
        "{columns}"
    );
    assert!(columns.contains("!!   consumer  assert item == ITEM FAILS: item = 0 "));
    let page = run(&["show", form, "--html", "-"]).out;
    for words in
        [">consumer</text>", "load slot2 -&gt; item = 0", "<div>first store #1</div></td>", "✗ assert item", "#0 load tail: 3"]
    {
        assert!(page.contains(words), "{words}");
    }
    let ended = run(&["graph", form, "000000"]);
    assert!(ended.err.contains("thread first has ended by then"), "{}", ended.err);
    let back = run(&["disasm", form]).out;
    assert!(back.contains("thread consumer\n  filled = load tail\n") && back.ends_with("alike first second\n"), "{back}");
    assert_eq!(run_with(&["asm", "-"], back.as_bytes()), run(&["asm", form]));
}

/// A failure is told by the statement that was written, not by what it was translated to.
#[test]
fn failures_by_their_statements() {
    let show =
        |body: &str| without_statements(&run_with(&["show", "-"], format!("thread\n  n = load x\n  {body}\n").as_bytes()).out);
    assert!(show("assert n != 0").contains("!!   T0  assert n != 0 FAILS: n = 0\n"));
    assert!(show("fail").contains("!!   T0  fail FAILS\n"));
    assert!(show("assert n == n\n  m = 1\n  assert n == m").contains("assert n == m FAILS: n = 0, m = 1\n"));
    assert!(show("assert n <= -1").contains("!!   T0  assert n <= -1 FAILS: n = 0\n"));
    assert!(show("m = 0x80000000\n  assert n <= m").contains("assert n <= m FAILS: n = 0, m = -0x80000000\n"));
    assert!(show("assert n > 0").contains("!!   T0  assert n > 0 FAILS: n = 0\n"));
    assert!(show("m = -1\n  assert m > 0").contains("!!   T0  assert m > 0 FAILS: m = -1\n"));
}
