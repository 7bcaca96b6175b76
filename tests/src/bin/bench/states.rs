//! Count and violation by states under both models: the library beside plain Rust with the same key and the same kind of table, of 2^16
//! slots; beside the walk, where nothing merges; on many small programs; and beside Spin, where it is installed.
use crate::timing::best_of;
use std::hint::black_box;
use tarczolin_tests::calls::{self, tso, Answer};
use tarczolin_tests::files::{lines, text};
use tarczolin_tests::oracle::decode::{decode, Instruction};
use tarczolin_tests::papers;
use tarczolin_tests::random::program::{frames_parted, Size, SMALL};
use tarczolin_tests::random::{tso as random_tso, Random};
use tarczolin_tests::search::states::{Model, Sc, States, Table, Tso};
use tarczolin_tests::{spin, table};

const SLOTS: usize = 1 << 16;
/// The ratio asked for at most beside plain Rust.
const ASKED: &str = "2.5";

/// The numbers of a program, and where it has one its first failing execution, with this scratch.
type CountWith = fn(&[u8], &mut u64, &mut u64, &mut [u64]) -> Answer;
type ViolationWith = fn(&[u8], &mut [u8], &mut [u64]) -> Answer;

/// One program counted and its first failing execution looked for, by the calls of a model and by plain Rust of the same.
macro_rules! row {
    ($name:ident, $model:ident, $by:literal, $schedule:expr, $count:expr, $violation:expr) => {
        fn $name(name: &str, file: &[u8], rounds: usize) {
            let (count, violation): (CountWith, ViolationWith) = ($count, $violation);
            let program = decode(file).unwrap();
            let mut table = Table::new(SLOTS);
            let mut states = States::new($model::new(&program));
            let mut scratch = vec![0; SLOTS * (states.model.width() + 2)];
            let numbers = states.count(&mut table);
            let (met, known) = (states.met, states.known);
            let library = || {
                let (mut listed, mut failing) = (0, 0);
                assert_eq!(count(black_box(file), &mut listed, &mut failing, &mut scratch), Answer::Answered(0));
                assert_eq!((listed, failing), (numbers.listed, numbers.failing), "both agree");
            };
            let plain = || States::new($model::new(&decode(black_box(file)).unwrap())).count(&mut table);
            let (library, plain) = best_of(rounds, 1, library, plain);
            println!("{} listed, {met} met, {known} of them known", table::grouped(numbers.listed));
            println!("{}", table::row(&format!(concat!($by, ", a count: {}"), name), library, plain, ASKED));
            let first = states.violation(&mut table);
            let answer = first.map_or(Answer::None, |first| Answer::Answered(first.len() as u64));
            let library = || assert_eq!(violation(black_box(file), &mut [0; $schedule], &mut scratch), answer, "both agree");
            let plain = || States::new($model::new(&decode(black_box(file)).unwrap())).violation(&mut table);
            let (library, plain) = best_of(rounds, 1, library, plain);
            println!("{}", table::row(&format!(concat!($by, ", a violation: {}"), name), library, plain, ASKED));
        }
    };
}

row!(row, Sc, "by states", calls::SCHEDULE, calls::count_with, calls::violation_with);
row!(row_tso, Tso, "store order by states", tso::SCHEDULE, tso::count_with, tso::violation_with);

/// Spin's time for one program, where Spin is installed: it says whether an assertion fails, and counts nothing.
fn beside_spin(file: &[u8]) {
    if !spin::is_installed() {
        return println!("  Spin is not installed");
    }
    let verdict = spin::verdict(&decode(file).unwrap());
    let fails = if verdict.fails { "an assertion fails" } else { "no assertion fails" };
    println!("  Spin, without compiling: {fails}, {} states, {:.2} ms", verdict.states, verdict.time.as_secs_f64() * 1e3);
}

/// Every access tells all that happened before: nothing merges.
fn history(threads: usize, accesses: usize) -> Vec<u8> {
    let thread = |t: usize| format!("01 12000000{:08x} {}", 1 << t, "1200000100000000 ".repeat(accesses - 1));
    lines(&(0..threads).map(thread).collect::<String>())
}

/// The two calls of a model that count, and how many words they are lent.
struct Walked {
    by: &'static str,
    count: fn(&[u8], &mut u64, &mut u64) -> Answer,
    count_with: CountWith,
    words: fn(&[u8]) -> usize,
}

impl Walked {
    /// Programs counted by states beside the same by the walk. All numbers agree.
    fn row(&self, name: &str, files: &[Vec<u8>], rounds: usize, asked: &str) {
        let counted = |file: &[u8], scratch: Option<&mut Vec<u64>>| {
            let (mut listed, mut failing) = (0, 0);
            let answer = match scratch {
                Some(scratch) => (self.count_with)(black_box(file), &mut listed, &mut failing, scratch),
                None => (self.count)(black_box(file), &mut listed, &mut failing),
            };
            assert_eq!(answer, Answer::Answered(0));
            (listed, failing)
        };
        let mut scratches: Vec<Vec<u64>> = files.iter().map(|file| vec![0; (self.words)(file)]).collect();
        for (file, scratch) in files.iter().zip(&mut scratches) {
            assert_eq!(counted(file, Some(scratch)), counted(file, None), "both agree: {}", file.escape_ascii());
        }
        let by_states =
            || files.iter().zip(&mut scratches).for_each(|(file, scratch)| _ = black_box(counted(file, Some(scratch))));
        let by_walk = || files.iter().for_each(|file| _ = black_box(counted(file, None)));
        let (by_states, by_walk) = best_of(rounds, 1, by_states, by_walk);
        println!("{}", table::row_by(&format!("{}: {name}", self.by), by_states, by_walk, "by the walk", asked));
    }
}

/// As much memory as the command lends for more than 8 accesses: sixteen states of the widest key for each way in which the threads can stand
/// at their accesses, and where stores are pending with so many of them in memory.
fn as_lent(file: &[u8], pending: bool) -> usize {
    let counted = |code: &[Instruction], is: fn(&Instruction) -> bool| code.iter().filter(|instruction| is(instruction)).count();
    let stores = |code: &[Instruction]| counted(code, |instruction| matches!(instruction, Instruction::Store { .. }));
    let accesses = |code: &[Instruction]| counted(code, Instruction::is_access);
    let stands = |code: &Vec<Instruction>| (1 + accesses(code)) * if pending { 1 + stores(code) } else { 1 };
    decode(file).unwrap().threads.iter().map(stands).product::<usize>().saturating_mul(320).min(2 << 20)
}

/// So many accesses a program has.
fn accesses(file: &[u8]) -> usize {
    decode(file).unwrap().threads.iter().flatten().filter(|instruction| instruction.is_access()).count()
}

/// Every access tells all that happened before, and each thread's first one leaves a store pending: nothing merges.
fn history_behind_stores(threads: usize, accesses: usize) -> Vec<u8> {
    let thread = |t: usize| format!("01 12000000{:08x} {}10010100000000 ", 1 << t, "1200000100000000 ".repeat(accesses - 2));
    lines(&(0..threads).map(thread).collect::<String>())
}

/// A ring: each thread stores to a location of its own and loads its neighbour's, twice.
fn ring(threads: usize) -> String {
    let thread = |t: usize| {
        format!("01 10{t:02x}0000000001 1100{0:02x} 10{t:02x}0000000002 1101{0:02x} 2501007fffffff ", (t + 1) % threads)
    };
    (0..threads).map(thread).collect()
}

fn report_tso() {
    println!("The same under total store order (the first two asked under 0.5 s)");
    row_tso("four threads of four fetch and adds", &lines(&format!("01 {}", "1200000000000001 ".repeat(4)).repeat(4)), 3);
    row_tso("a ring of four, store, load, twice", &lines(&ring(4)), 3);
    row_tso("a ring of three", &lines(&ring(3)), 5);
    row_tso("8 stores beside 8 loads", &lines(&format!("01 {} 01 {}", "10000000000001 ".repeat(8), "110000 ".repeat(8))), 20);
}

/// Where nothing merges: a program that keeps its history in memory.
fn report_histories() {
    println!("The same count by states and by the walk, where nothing merges");
    let sc = Walked { by: "by states", count: calls::count, count_with: calls::count_with, words: |_| SLOTS * 20 };
    sc.row("three threads of five that keep the history", &[history(3, 5)], 3, "1.6");
    sc.row("four threads of three that do", &[history(4, 3)], 3, "1.6");
    let tso = Walked { by: "store order by states", count: tso::count, count_with: tso::count_with, words: |_| SLOTS * 29 };
    tso.row("three of five that keep the history", &[history(3, 5)], 3, "1.6");
    tso.row("four of three that do", &[history(4, 3)], 3, "1.6");
    tso.row("two of eight that do", &[history(2, 8)], 20, "1.6");
    tso.row("three of five, stores last", &[history_behind_stores(3, 5)], 3, "1.6");
}

/// So many accesses at least and at most.
type Between = [usize; 2];

/// 200 random programs of so many accesses.
fn programs(random: &mut Random, [least, most]: Between, frames: fn(&mut Random, Size) -> Vec<Vec<u8>>) -> Vec<Vec<u8>> {
    let size = Size { threads: 4, instructions: 6, accesses: most, ..SMALL };
    (0..).map(|_| text(&frames(random, size))).filter(|file| accesses(file) >= least).take(200).collect()
}

/// Small programs: those to which the command lends nothing, and the next larger ones.
fn report_small() {
    println!("Small programs with a scratch: the command lends none for at most 8 accesses");
    let sc = Walked { by: "by states", count: calls::count, count_with: calls::count_with, words: |file| as_lent(file, false) };
    let words = |file: &[u8]| as_lent(file, true);
    let tso = Walked { by: "store order by states", count: tso::count, count_with: tso::count_with, words };
    let mut random = Random::new(5);
    for (between, rounds) in [([1, 8], 20), ([9, 12], 3)] {
        let name = format!("200 programs of {} to {} accesses", between[0], between[1]);
        sc.row(&name, &programs(&mut random, between, frames_parted), rounds, "");
        tso.row(&name, &programs(&mut random, between, random_tso::frames), rounds, "");
    }
}

pub fn report() {
    println!("Count and violation by states beside plain Rust with the same key and 2^16 slots");
    let sums = "01 110000 21000000000001 10000100000000 110100 2501007fffffff ";
    let beside = format!("01 {} 01 {}", "10000000000001 ".repeat(12), "110000 ".repeat(12));
    let rows = [
        ("six threads of four fetch and adds", format!("01 {}", "1200000000000001 ".repeat(4)).repeat(6), 3),
        ("six of load, add 1, store, load, assert", sums.repeat(6), 3),
        ("the same, alike", format!("{} 02000102030405", sums.repeat(6)), 3),
        ("12 stores beside 12 loads", beside, 20),
    ];
    for (name, words, rounds) in rows {
        row(name, &lines(&words), rounds);
        beside_spin(&lines(&words));
    }
    let mut papers = papers::all();
    papers.sort_by_key(|paper| std::cmp::Reverse(paper.listed));
    for paper in &papers[..3] {
        row(&paper.name, &paper.file, 5);
    }
    report_tso();
    report_histories();
    report_small();
}
