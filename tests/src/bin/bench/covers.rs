//! One program against another.
use std::hint::black_box;
use std::time::Instant;
use tarczolin_tests::calls::{self, Answer, Covers};
use tarczolin_tests::files::lines;
use tarczolin_tests::table;

/// Stores of 1, 2, .. beside loads of the same location, of which some are kept at locations of their own.
fn program(stores: usize, loads: usize, kept: &[usize]) -> Vec<u8> {
    let writer: String = (1..=stores).map(|value| format!("100000{value:08x} ")).collect();
    let load = |k: usize| match kept.iter().position(|at| *at == k) {
        Some(l) => format!("110000 10{:02x}0100000000 ", l + 1),
        None => "110100 ".to_string(),
    };
    lines(&format!("01 {writer} 01 {}", (0..loads).map(load).collect::<String>()))
}

fn counted(file: &[u8]) -> (f64, u64) {
    let (mut listed, mut failing) = (0, 0);
    let began = Instant::now();
    assert_eq!(black_box(calls::count(file, &mut listed, &mut failing)), Answer::Answered(0));
    (began.elapsed().as_nanos() as f64, listed)
}

/// The best of three, as a ratio to a count of both files, each measured in turns.
fn row(what: &str, first: &[u8], second: &[u8]) {
    let mut best = [f64::MAX; 2];
    let mut listed = [0; 2];
    let mut answer = Covers::Covered;
    for _ in 0..3 {
        let both = [counted(first), counted(second)];
        listed = both.map(|(_, listed)| listed);
        best[0] = best[0].min(both[0].0 + both[1].0);
        let began = Instant::now();
        answer = black_box(calls::covers(first, second, &mut [0; 24]));
        best[1] = best[1].min(began.elapsed().as_nanos() as f64);
    }
    println!("{} and {} listed, {answer:?}", listed[0], listed[1]);
    println!("{}", table::row_by(&format!("covers, {what}"), best[1], best[0], "for two counts", "60"));
}

/// Words of the scratch of the rows by states.
const SCRATCH: usize = 1 << 16;

/// The best of many rounds by states, as a ratio to a count by states of both files with the same scratch, each measured in turns.
fn row_by_states(what: &str, first: &[u8], second: &[u8]) {
    let mut scratch = vec![0; SCRATCH];
    let mut best = [f64::MAX; 2];
    let mut answer = Covers::Covered;
    for _ in 0..50 {
        let began = Instant::now();
        for file in [first, second] {
            let (mut listed, mut failing) = (0, 0);
            assert_eq!(calls::count_with(black_box(file), &mut listed, &mut failing, &mut scratch), Answer::Answered(0));
        }
        best[0] = best[0].min(began.elapsed().as_nanos() as f64);
        let began = Instant::now();
        answer = black_box(calls::covers_with(black_box(first), black_box(second), &mut [0; 24], &mut scratch));
        best[1] = best[1].min(began.elapsed().as_nanos() as f64);
    }
    println!("{answer:?}");
    println!("{}", table::row_by(&format!("covers by states, {what}"), best[1], best[0], "for two counts", "1.5"));
}

pub fn report() {
    println!("One program against another, beside the library's own counts of both (asked: at most 60 times these)");
    let few = program(10, 10, &[9]);
    row("10 stores beside 10 loads, against itself", &few, &few);
    let many = program(8, 13, &[5, 12]);
    row("8 stores beside 13 loads, against itself", &many, &many);
    let other = program(8, 13, &[5, 11]);
    row("the same against one that keeps another load", &many, &other);
    row_by_states("two programs of 203,490 listed", &many, &many);
    row_by_states("the same against another load kept", &many, &other);
    let far = lines(&(0..6).map(|t| format!("01 1200000000000001 10{:02x}0100000000 ", t + 1)).collect::<String>());
    row("six threads, 720 outcomes, against itself", &far, &far);
}
