//! x86: what total store order adds, executions and outcomes, told as robust and covers tell them.
mod common;

use common::json::{parse, Value};
use common::{run, run_with};
use tarczolin_tests::files::text;
use tarczolin_tests::random::ends::buffering;
use tarczolin_tests::random::program::{frames, Size, SMALL};
use tarczolin_tests::random::Random;
use tarczolin_tests::share;

const PAIR: &str = "examples/store-load-pair.hex";
const DEKKER: &str = "examples/suite/dekker.asm";

/// Nothing is added to a robust program.
#[test]
fn nothing() {
    let ran = run(&["x86", "examples/message-passing.asm"]);
    let told =
        "x86 adds nothing: every execution under total store order is one of sequential consistency, and so is every outcome\n";
    assert_eq!((ran.status, ran.out.as_str(), ran.err.as_str()), (0, told, ""));
    let ran = run(&["x86", "examples/message-passing.asm", "examples/queue-broken.asm"]);
    assert_eq!((ran.status, ran.out.matches("x86 adds nothing").count()), (0, 2), "{}", ran.out);
}

/// The pair has another execution, and ends as before: said, with the execution that robust shows, and no all-clear by the exit status.
#[test]
fn executions_and_no_outcome() {
    let ran = run(&["x86", PAIR]);
    let front = "x86 adds executions and no outcome: final memory, and whether it fails, is as under sequential consistency; \
                 registers may differ\n\n";
    assert_eq!((ran.status, ran.out), (1, front.to_string() + &run(&["robust", PAIR]).out));
}

/// Dekker's threads are both inside: the outcome with its execution, those under sequential consistency, and the circle.
#[test]
fn an_outcome() {
    let ran = run(&["x86", DEKKER]);
    let front = "x86 adds an outcome: this execution under total store order ends as none of sequential consistency does\n\n\
                 execution: schedule 00 00 01 01 10 00 11 01, fails\n";
    assert!(ran.status == 1 && ran.out.starts_with(front), "{}", ran.out);
    let outcomes = "outcome    wants_left=1, wants_right=1, inside=2, fails\n\noutcomes under sequential consistency:\n";
    assert!(ran.out.contains(outcomes), "{}", ran.out);
    let same = "\nnot robust: the same execution is the first that is none of sequential consistency\nthese go in a circle ";
    assert!(ran.out.contains(same) && ran.out.matches("execution: ").count() == 1, "{}", ran.out);
}

/// Where the first relaxed execution has no new outcome both are shown.
#[test]
fn two_executions() {
    // store buffering is met first without a trace in memory; only where both loads are old does the sum stay 0
    let text =
        b"thread a\n  store x 1\n  n = load y\n  m = fetch_add z n\nthread b\n  store y 1\n  n = load x\n  m = fetch_add z n\n";
    let ran = run_with(&["x86", "-"], text);
    assert_eq!(ran.status, 1, "{}", ran.out);
    assert!(ran.out.contains("outcome    x=1, y=1, z=0\n"), "{}", ran.out);
    let shown = ran.out.matches("execution: schedule ").count();
    assert_eq!(shown, if ran.out.contains("not robust: this execution") { 2 } else { 1 }, "{}", ran.out);
}

/// What is refused is refused as under total store order; fences are kept there, and nothing is said of what the other model leaves out.
#[test]
fn refusals_and_fences() {
    let ran = run(&["x86", "examples/accesses-24.hex"]);
    assert!(ran.status == 2 && ran.err.contains("refusal 41"), "{ran:?}");
    let dekker = String::from_utf8(std::fs::read(tarczolin_tests::files::path(DEKKER)).unwrap()).unwrap();
    let ran = run_with(&["x86", "-"], dekker.replace("  other = load", "  fence\n  other = load").as_bytes());
    assert!(ran.status == 0 && ran.out.starts_with("x86 adds nothing: ") && ran.err.is_empty(), "{ran:?}");
    assert!(run(&["x86"]).err.contains("usage: tarczolin x86 FILE.."));
}

/// On random programs: as robust says, and as covers says of the file under both models.
#[test]
fn as_the_two_commands() {
    let mut random = Random::new(0x7838);
    let size = Size { threads: 3, instructions: 4, accesses: 7, locations: 2, constants: 2, ..SMALL };
    let mut seen = [0; 3];
    let folder = common::folder("x86-random");
    for k in 0..share::of(150) {
        let path = folder.join("program.hex");
        let file = if k % 2 == 0 { buffering(&mut random) } else { text(&frames(&mut random, size)) };
        std::fs::write(&path, file).unwrap();
        let name = path.display().to_string();
        let robust = run(&["robust", &name]).status == 0;
        let covered = run(&["covers", &name, &name, "--under", "sc,tso"]).status == 0;
        let ran = run(&["x86", &name, "--json"]);
        let object = parse(ran.out.trim_end());
        let says = |field: &str| object.get(field) == Some(&Value::Bool(true));
        assert_eq!((ran.status, says("robust"), says("covered")), (!robust as i32, robust, covered), "{}", ran.out);
        assert_eq!(
            [object.get("relaxed"), object.get("added")].map(|one| one == Some(&Value::Null)),
            [robust, covered],
            "{}",
            ran.out
        );
        seen[if robust { 0 } else { 1 + !covered as usize }] += 1;
    }
    // an execution without an outcome is the store and load pair's
    assert!(!share::whole() || (seen[0] > 20 && seen[2] > 10), "nothing, executions, outcomes: {seen:?}");
}
