//! A step: the library's, in a replay and in the search, beside plain Rust's on the same program.
use crate::timing::{best, best_of};
use std::hint::black_box;
use tarczolin_tests::calls::{count, graph, Answer};
use tarczolin_tests::files::lines;
use tarczolin_tests::oracle::decode::{decode, Program};
use tarczolin_tests::oracle::machine::{opened, Event, Thread, INITIAL};
use tarczolin_tests::search::Search;
use tarczolin_tests::table;

/// A machine of fixed size: threads, memory, and the last write of each location.
struct Machine {
    threads: [Thread; 6],
    memory: [u32; 8],
    last: [Event; 8],
}

/// What is kept of a step: its event and location, whether it read, the write that it found there, whether it wrote.
type Note = (Event, u8, bool, Event, bool);

impl Machine {
    fn new(program: &Program) -> Machine {
        let mut machine = Machine { threads: [Thread::default(); 6], memory: program.memory, last: [INITIAL; 8] };
        for (thread, code) in machine.threads.iter_mut().zip(&program.threads) {
            *thread = opened(code);
        }
        machine
    }

    fn may(&self, program: &Program, t: u8) -> bool {
        program.threads.get(t as usize).is_some_and(|code| !self.threads[t as usize].ended(code))
    }

    /// The step of a thread that has not ended.
    fn step(&mut self, program: &Program, t: u8) -> Note {
        let code = &program.threads[t as usize];
        let thread = &mut self.threads[t as usize];
        let event = Event { t, i: thread.accesses };
        let read = thread.reads(code);
        let l = thread.location(code) as usize;
        let effect = thread.access(code, self.memory[l]);
        let note = (event, effect.location, read, self.last[l], effect.written.is_some());
        if let Some(value) = effect.written {
            self.memory[l] = value;
            self.last[l] = event;
        }
        note
    }
}

/// Carries out a schedule as far as it goes: how many steps, whether all threads have ended, and the notes.
fn replay(program: &Program, schedule: &[u8]) -> (usize, bool, [Note; 24]) {
    let mut machine = Machine::new(program);
    let mut notes = [(INITIAL, 0, false, INITIAL, false); 24];
    for (k, &t) in schedule.iter().enumerate() {
        if !machine.may(program, t) {
            return (k, false, notes);
        }
        notes[k] = machine.step(program, t);
    }
    let full = (0..6).all(|t| !machine.may(program, t));
    (schedule.len(), full, notes)
}

/// Prints the best times of a step of one program whose full schedules have 24 steps. One step short of full is refused by 21, before any
/// text is written; a byte that names no thread is refused by 20, before any step.
fn row(name: &str, words: &str, schedule: &[u8]) {
    let file = lines(words);
    let mut out = [0; 512];
    let mut times = |schedule: &[u8]| {
        best(|| graph(black_box(&file), schedule, &mut out), || replay(&decode(black_box(&file)).unwrap(), schedule))
    };
    assert_eq!(schedule.len(), 24);
    let (stepped, none) = (times(&schedule[..23]), times(&[0xff]));
    let (library, plain) = ((stepped.0 - none.0) / 23.0, (stepped.1 - none.1) / 23.0);
    println!("{}", table::row(&format!("a step of a replay, {name}"), library, plain, "2"));
}

/// Prints the best times of a step of the search through one program that declares no threads alike: a count's time over the steps that
/// are taken, which are the same in both.
fn searched(name: &str, words: &str) {
    let file = lines(words);
    let program = decode(&file).unwrap();
    let mut search = Search::new(&program);
    let counts = search.count();
    let steps = search.prefixes - 1;
    let counted = || {
        let (mut listed, mut failing) = (0, 0);
        assert_eq!(count(black_box(&file), &mut listed, &mut failing), Answer::Answered(0));
        assert_eq!((listed, failing), counts, "both agree");
    };
    let rounds = (2_000_000 / steps).clamp(3, 300) as usize;
    let (library, plain) = best_of(rounds, 1, counted, || Search::new(&decode(black_box(&file)).unwrap()).count());
    let (library, plain) = (library / steps as f64, plain / steps as f64);
    println!("{steps} steps, {} listed", counts.0);
    println!("{}", table::row(&format!("a step of the search, {name}"), library, plain, "2"));
}

/// A thread of four accesses and two register instructions, and one that loads, adds 1 and stores twice.
const SUMS: &str = "01 1200000000000001 21000100000000 1201010100000000 13020201000000000100000001 23020000000000 110303 ";
const INCREMENT: &str = "110000 21000000000001 10000100000000 ";

/// Twelve stores of one location beside twelve loads.
fn twelve() -> String {
    format!("01 {} 01 {} ", "10000000000001 ".repeat(12), "110000 ".repeat(12))
}

pub fn report() {
    println!("A step in the search, with all that its rules ask there: tarczolin_count beside plain Rust's search by the same rules, over the");
    println!("number of steps that the search takes (asked: at most 2)");
    searched("12 stores beside 12 loads", &twelve());
    searched("three threads of four accesses", &SUMS.repeat(3));
    searched("three threads of load, add, store twice", &format!("01 {INCREMENT} {INCREMENT} ").repeat(3));
    searched("six threads of load, add, store", &format!("01 {INCREMENT} ").repeat(6));
    println!("A step in a replay by tarczolin_graph beside plain Rust: 23 steps refused by 21, less none refused at the first byte, over 23.");
    println!("Both decode the file, store each step in one machine, keep what it read, from where, and whether it wrote, and write no text");
    let alternating: Vec<u8> = (0..24).map(|k| k % 2).collect();
    row("12 stores beside 12 loads", &twelve(), &alternating);
    let six: Vec<u8> = (0..24).map(|k| k % 6).collect();
    row("six threads of four accesses", &SUMS.repeat(6), &six);
    row("six threads of load, add, store twice", &format!("01 {INCREMENT} {INCREMENT} ").repeat(6), &six);
}
