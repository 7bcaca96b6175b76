//! force: what it prints, what it takes behind --hostile, and that a play goes by the rules and ends as the library says.
mod common;

use common::{run, run_with};
use tarczolin::ask::{self, Force};
use tarczolin::machine::Machine;
use tarczolin::memory::Memory;
use tarczolin::play::play;
use tarczolin::program::Program;
use tarczolin_tests::files::text;
use tarczolin_tests::random::program::{frames, Size, SMALL};
use tarczolin_tests::random::Random;
use tarczolin_tests::share;

const QUEUE: &str = "examples/queue-broken.asm";
const LOAD: &str = "examples/load-assert-beside-store.hex";

#[test]
fn who_can_force() {
    let told = |words: &[&str]| {
        let ran = run(&[&["force"], words].concat());
        (ran.status, ran.out)
    };
    let hostile = |step: &str| (1, format!("hostile can force the failure: {step}\n"));
    let friendly = (0, "friendly can force that nothing fails\n".to_string());
    assert_eq!(told(&[LOAD, "--hostile", "1"]), hostile("first step 01, T1"));
    assert_eq!(told(&[LOAD, "--hostile", "T1, T0"]), hostile("first step 01, T1"));
    assert_eq!(told(&[LOAD, "--hostile", "0"]), friendly);
    assert_eq!(told(&[LOAD, "--hostile", ""]), friendly);
    assert_eq!(told(&[QUEUE, "--hostile", "second,first"]), told(&[QUEUE, "--hostile=0,1"]));
    let ran = run_with(&["force", "-", "--hostile", "0"], b"01\n23000000000001\n01\n110000\n");
    assert_eq!((ran.status, ran.out), hostile("it has no step and passes first"));
}

#[test]
fn what_stands_behind_hostile() {
    let err = |words: &[&str]| {
        let ran = run(&[&["force", LOAD], words].concat());
        assert_eq!((ran.status, ran.out.as_str()), (2, ""), "{words:?}");
        ran.err
    };
    assert!(err(&[]).contains("force needs --hostile THREADS"));
    assert!(
        err(&["--hostile", "third"]).contains("--hostile: there is no thread third; the program has T0, T1, numbered from 0\n")
    );
    assert!(err(&["--hostile", "8"]).contains("--hostile: there is no thread 8; the program has T0, T1, numbered from 0\n"));
    assert!(
        err(&["--hostile", "7,2"]).contains("refusal 48 at thread 2: there is no thread 2; the program has 2, numbered from 0")
    );
    let refused = run_with(&["force", "-", "--hostile", "7"], b"01\n110400\n");
    assert!(refused.status == 2 && refused.err.contains("refusal 4 at line 2"), "{}", refused.err);
}

#[test]
fn a_play_in_two_columns() {
    let shown = "\
hostile can force the failure: first step 01, T1
hostile: T1; friendly: T0; a play in which hostile follows its strategy (the library is asked at each turn):
execution: schedule 01 00, fails
#0   T1  store x0 = 1
#0   T0  load x0 -> r0 = 1             T1 store #0
!!   T0  assert r0 == 0 FAILS: r0 = 1
memory     x0 = 1
registers  T0.r0 = 1
";
    let ran = run(&["force", LOAD, "--hostile", "1", "--play"]);
    assert_eq!((ran.status, ran.out.as_str()), (1, shown));
    assert!(run(&["force", LOAD, "--hostile", "", "--play"])
        .out
        .contains("\nhostile: none; friendly: T0, T1; a play in which friendly"));
}

/// The sides of a play step in turn, a side with none left passes, and the end and the first step are the library's.
#[test]
fn plays_go_by_the_rules() {
    let mut random = Random::new(0x91a7);
    let size = Size { threads: 4, instructions: 5, accesses: 10, ..SMALL };
    let (mut hostile, memory) = (0, Memory::default());
    for _ in 0..share::of(600) {
        let file = text(&frames(&mut random, size));
        let program = Program::of_accepted(&file);
        for set in 0..1u8 << program.threads.len() {
            let schedule = play(&program, set, memory);
            let own = |t: u8| set >> t & 1 == 1;
            let (mut machine, mut turn) = (Machine::new(&program), true);
            for &t in schedule.iter() {
                turn = if machine.going().any(|t| own(t) == turn) { turn } else { !turn };
                assert!(machine.may(t) && own(t) == turn, "{schedule} by {set:02x}");
                machine.step(t);
                turn = !turn;
            }
            assert_eq!(machine.going().count(), 0, "{schedule} by {set:02x} is full");
            let forced = ask::force(&file, set, &mut []).unwrap();
            assert_eq!(machine.fails(), forced != Force::Friendly, "{schedule} by {set:02x}");
            if let Force::Hostile(Some(first)) = forced {
                assert_eq!(schedule.first(), Some(&first));
                hostile += 1;
            }
        }
    }
    assert!(!share::whole() || hostile > 200, "{hostile}");
}
