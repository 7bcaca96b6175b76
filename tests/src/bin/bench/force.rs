//! Who can force the failure, beside a plain recursion that decides nothing before a play has ended.
use crate::timing::best_of;
use std::hint::black_box;
use tarczolin_tests::calls;
use tarczolin_tests::files::lines;
use tarczolin_tests::oracle::decode::{decode, Program};
use tarczolin_tests::oracle::machine::{opened, Thread};
use tarczolin_tests::table;

/// A machine of fixed size, copied for each step as the library's is.
#[derive(Clone, Copy)]
struct Machine {
    threads: [Thread; 6],
    memory: [u32; 8],
}

fn may(program: &Program, machine: &Machine, t: usize) -> bool {
    program.threads.get(t).is_some_and(|code| !machine.threads[t].ended(code))
}

/// Does the hostile side win where it is this side's turn?
fn wins(program: &Program, machine: &Machine, set: u8, hostile: bool) -> bool {
    let own = |t: &usize, side: bool| may(program, machine, *t) && (set >> t & 1 == 1) == side;
    let side = if (0..6).any(|t| own(&t, hostile)) { hostile } else { !hostile };
    let mut steps = (0..6).filter(|t| own(t, side)).peekable();
    if steps.peek().is_none() {
        return machine.threads.iter().any(|thread| thread.failed);
    }
    let better = steps.any(|t| {
        let mut next = *machine;
        let code = &program.threads[t];
        let l = next.threads[t].location(code) as usize;
        if let Some(value) = next.threads[t].access(code, next.memory[l]).written {
            next.memory[l] = value;
        }
        wins(program, &next, set, !side) == side
    });
    better == side
}

fn plain(file: &[u8], set: u8) -> bool {
    let program = decode(file).unwrap();
    let mut machine = Machine { threads: [Thread::default(); 6], memory: [0; 8] };
    for (thread, code) in machine.threads.iter_mut().zip(&program.threads) {
        *thread = opened(code);
    }
    wins(&program, &machine, set, true)
}

fn row(name: &str, words: &str, set: u8, rounds: usize) {
    let file = lines(words);
    let hostile = matches!(calls::force(&file, set), calls::Answer::Answered(_));
    assert_eq!(hostile, plain(&file, set), "both agree");
    let (library, recursion) = best_of(rounds, 1, || calls::force(black_box(&file), set), || plain(black_box(&file), set));
    let side = if hostile { "hostile" } else { "friendly" };
    println!("{}", table::row(&format!("force, {side}: {name}"), library, recursion, ""));
}

/// A thread that stores three times at a location of its own, loads it, and asserts what it stored.
fn own(l: usize) -> String {
    let store = format!("10{l:02x}0000000001 ");
    format!("01 {}1100{l:02x} 23000000000001 ", store.repeat(3))
}

/// Four loads of a location that nobody writes.
fn idle(loads: usize) -> String {
    format!("01 {}", "110007 ".repeat(loads))
}

pub fn report() {
    println!("Who can force the failure: tarczolin_force beside a plain recursion that decides nothing before a play has ended");
    let never: String = (0..6).map(own).collect();
    row("six threads of which none can fail", &never, 0b000111, 3);
    let late = format!("01 110007 10000000000001 110007 {}{}01 110000 23000000000000 110007 ", idle(3), idle(3).repeat(2));
    row("a load before the hostile store", &late, 0b00011, 20);
    let soon = format!("01 10000000000001 110007 {}01 110000 23000000000000 110007 ", idle(3).repeat(3));
    row("a load behind the hostile store", &soon, 0b00011, 20);
    row("four threads of six loads, nothing asserted", &idle(6).repeat(4), 0b0011, 3);
}
