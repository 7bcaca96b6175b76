//! The search on some programs: the library's count beside plain Rust's search by the same rules, with one copy of the place a step, and beside
//! the same search with one place in which each step is made and taken back.
use crate::timing::best_of;
use std::hint::black_box;
use tarczolin_tests::calls::{count, Answer};
use tarczolin_tests::files::lines;
use tarczolin_tests::oracle::decode::decode;
use tarczolin_tests::search::Search;
use tarczolin_tests::table;

const LOAD: &str = "110000";
const LOCK: &str = "13000000000000000000000001";
const UNLOCK: &str = "10000000000000";

/// Reads the lock; where it is free takes it, and where that succeeds gives it back. The skips say how far a failure leads.
fn taken(busy: u8, lost: u8) -> String {
    format!("{LOAD} 22000000000000{busy:02x} {LOCK} 22000000000000{lost:02x} {UNLOCK} ")
}

/// Prints one row.
fn row(name: &str, words: &str, rounds: usize) {
    let file = lines(words);
    let program = decode(&file).unwrap();
    let mut search = Search::new(&program);
    let counts = search.count();
    let counted = || {
        let (mut listed, mut failing) = (0, 0);
        assert_eq!(count(black_box(&file), &mut listed, &mut failing), Answer::Answered(0));
        assert_eq!((listed, failing), counts, "both agree");
    };
    let (library, plain) = best_of(rounds, 1, counted, || Search::new(&decode(black_box(&file)).unwrap()).count());
    let (_, in_place) = best_of(rounds, 1, || (), || Search::new(&decode(black_box(&file)).unwrap()).count_in_place());
    assert_eq!(Search::new(&program).count_in_place(), counts, "steps taken back change nothing");
    println!("{} prefixes, {} dead ends", search.prefixes, search.dead_ends);
    println!("with steps taken back {:.3} ms: {:.2} of one copy a step", in_place / 1e6, in_place / plain);
    println!("{}", table::row(&format!("a count, {name}: {} listed", table::grouped(counts.0)), library, plain, "1.3"));
}

pub fn report() {
    println!("A whole count beside plain Rust's search by the same rules, unproved, with one copy of the place a step (asked: at most 1.3)");
    row("12 stores beside 12 loads", &format!("01 {} 01 {}", "10000000000001 ".repeat(12), "110000 ".repeat(12)), 5);
    let twice = format!("01 {}{}", taken(8, 6), taken(3, 1));
    row("four alike take a lock twice", &format!("{} 0200010203", twice.repeat(4)), 5);
    row("six take a lock", &format!("01 {}", taken(3, 1)).repeat(6), 3);
    let increments = "01 110000 21000000000001 10000100000000 ".repeat(6);
    row("six alike, load, add, store", &format!("{increments} 02000102030405"), 100);
    row("six threads of two fetch and adds", &"01 1200000000000001 1200010000000001 ".repeat(6), 10);
    row("six threads of a store and a load", &"01 10000000000001 110000 ".repeat(6), 10);
    row("six threads that add zero", &"01 1200000000000000 ".repeat(6), 100);
}
