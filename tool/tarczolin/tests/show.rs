//! show on known cases: two columns, headers, the failing assertion marked, and which executions are chosen.
mod common;

use common::{run, run_with};
use tarczolin::ask::Listed;
use tarczolin::asm::assemble;
use tarczolin::execution::{Execution, Source};
use tarczolin::graph::Event;
use tarczolin::program::Program;
use tarczolin::schedule::Schedule;
use tarczolin_tests::files::{lines, text};
use tarczolin_tests::oracle::decode::decode;
use tarczolin_tests::oracle::graph::Graph;
use tarczolin_tests::oracle::machine::{run_full, INITIAL};
use tarczolin_tests::random::program::{frames, ANY};
use tarczolin_tests::random::{schedule, Random};
use tarczolin_tests::share;

#[test]
fn two_columns() {
    let shown = "\
execution 1: schedule 00 01, does not fail
#0   T0  load x0 -> r0 = 0  initial
#0   T1  store x0 = 1
memory     x0 = 1
registers  T0.r0 = 0

execution 2: schedule 01 00, fails
#0   T1  store x0 = 1
#0   T0  load x0 -> r0 = 1             T1 store #0
!!   T0  assert r0 == 0 FAILS: r0 = 1
memory     x0 = 1
registers  T0.r0 = 1
";
    let name = "examples/load-assert-beside-store.hex";
    let ran = run(&["show", name]);
    assert_eq!((ran.status, ran.out.as_str()), (1, shown));
    let second = shown.split_once("\n\n").unwrap().1;
    assert_eq!(run(&["show", name, "--from", "2"]).out, second);
    assert_eq!(run(&["show", name, "--only", "failing"]).out, second);
    let none = run(&["show", name, "--from", "3"]);
    assert_eq!(
        (none.status, none.out.as_str()),
        (1, "nothing to show: none of the listed executions is chosen (2 listed, 1 failing)\n")
    );
}

/// All four accesses, with operands from registers, a sum that wraps, swaps that succeed and fail.
#[test]
fn every_access() {
    let form = "
thread
  r1 = 2
  store x3 r1
  r0 = load x3
  r0 = fetch_add x3 0xffffffff
  r2 = cas x3 2 9
  r2 = cas x3 1 9
";
    let shown = "\
execution 1: schedule 00 00 00 00 00, does not fail
#0   T0  store x3 = 2
#1   T0  load x3 -> r0 = 2                          T0 store #0
#2   T0  fetch_add x3 0xffffffff -> r0 = 2, x3 = 1  T0 store #0
#3   T0  cas x3 2 9 -> r2 = 1, no swap              T0 fetch_add #2
#4   T0  cas x3 1 9 -> r2 = 1, x3 = 9               T0 fetch_add #2
memory     x3 = 9
registers  T0.r0 = 2, T0.r1 = 2, T0.r2 = 1
";
    assert_eq!(run_with(&["show", "-"], &assemble(form.as_bytes()).unwrap().file).out, shown);
}

#[test]
fn assertions_before_the_first_step() {
    let ran = run_with(&["show", "-"], &lines("01 23000000000001 01 23010100000000 110000"));
    let shown = "\
execution 1: schedule 01, fails
!!   T0  assert r0 == 1 FAILS: r0 = 0, before the first step
#0   T1  load x0 -> r0 = 0                                    initial
memory     x0 = 0
registers  T0.r0 = 0, T1.r0 = 0, T1.r1 = 0
";
    assert_eq!(ran.out, shown);
    let empty = run_with(&["show", "-"], &lines("01"));
    assert_eq!((empty.status, empty.out.as_str()), (0, "execution 1: schedule (no step), does not fail\n"));
}

/// A schedule of the oracle's as the tool holds it.
fn held(steps: &[u8]) -> Schedule {
    let mut schedule = Schedule::default();
    steps.iter().for_each(|t| schedule.push(*t));
    schedule
}

/// On random programs and schedules the values, the sources and the verdict are those of the oracle.
#[test]
fn values_and_sources_are_the_oracles() {
    let mut random = Random::new(71);
    for _ in 0..share::of(5_000) {
        let file = text(&frames(&mut random, ANY));
        let (oracle, program) = (decode(&file).unwrap(), Program::of_accepted(&file));
        let steps = schedule::full(&mut random, &oracle);
        let run = run_full(&oracle, &steps).unwrap();
        let graph = Graph::of(&run);
        let listed = Listed { schedule: held(&steps), fails: run.fails() };
        let execution = Execution::of(&file, &program, 1, &listed).unwrap();
        for (step, (event, effect)) in execution.steps.iter().zip(&run.done) {
            assert_eq!((step.done.found, step.done.left, step.done.location), (effect.read, effect.written, effect.location));
            let source = graph.reads.get(event).map(|s| (*s != INITIAL).then_some(Event { t: s.t, i: s.i }));
            let shown = step.source.map(|s| match s {
                Source::Initial => None,
                Source::Write(event, ..) => Some(event),
            });
            assert_eq!(shown, source);
        }
    }
}

/// A fetch and add of zero is said to read, on the left and on the right.
#[test]
fn adding_zero_reads() {
    let form = "thread\n  store x 5\nthread\n  r1 = fetch_add x 0\n  r1 = fetch_add x 1\n";
    let ran = run_with(&["show", "-", "000101"], form.as_bytes()).out;
    assert!(ran.contains("#0   T1  fetch_add x 0 -> r1 = 5, reads  reads T0 store #0  4 | r1 = fetch_add x 0\n"), "{ran}");
    assert!(ran.contains("#1   T1  fetch_add x 1 -> r1 = 5, x = 6  T0 store #0        5 | r1 = fetch_add x 1\n"), "{ran}");
}
