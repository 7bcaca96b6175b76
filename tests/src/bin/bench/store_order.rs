//! Total store order: the library's count beside plain Rust's search by the same rules, with one copy of the place a step.
use crate::timing::best_of;
use std::hint::black_box;
use tarczolin_tests::calls::{tso, Answer};
use tarczolin_tests::files::lines;
use tarczolin_tests::oracle::decode::decode;
use tarczolin_tests::search::store_order::Search;
use tarczolin_tests::table;

/// Prints one row: what is listed and walked, and a step's time in both.
fn row(name: &str, words: &str) {
    let file = lines(words);
    let program = decode(&file).unwrap();
    let mut search = Search::new(&program);
    let counts = search.count();
    let steps = (search.prefixes - 1).max(1);
    let counted = || {
        let (mut listed, mut failing) = (0, 0);
        assert_eq!(tso::count(black_box(&file), &mut listed, &mut failing), Answer::Answered(0));
        assert_eq!((listed, failing), counts, "both agree");
    };
    let rounds = (1_000_000 / steps).clamp(3, 300) as usize;
    let (library, plain) = best_of(rounds, 1, counted, || Search::new(&decode(black_box(&file)).unwrap()).count());
    println!("{} listed, {} prefixes, {} dead ends", counts.0, search.prefixes, search.dead_ends);
    let (library, plain) = (library / steps as f64, plain / steps as f64);
    println!("{}", table::row(&format!("total store order, a step: {name}"), library, plain, "2.5"));
}

fn store(l: usize) -> String {
    format!("10{l:02x}0000000001 ")
}

fn load(l: usize) -> String {
    format!("1100{l:02x} ")
}

/// So many threads, each of which stores to its location and loads the next one's.
fn buffering(threads: usize) -> String {
    (0..threads).map(|t| format!("01 {}{}", store(t), load((t + 1) % threads))).collect()
}

pub fn report() {
    println!("A whole count under total store order beside plain Rust's search by the same rules (asked: a step at most 2.5)");
    row("the pair of document 01", &buffering(2));
    row("store buffering of six threads", &buffering(6));
    row("8 stores beside 8 loads", &format!("01 {} 01 {}", store(0).repeat(8), load(0).repeat(8)));
    row("four threads of four private stores", &(0..4).map(|t| format!("01 {}", store(t).repeat(4))).collect::<String>());
    let increment = "01 110000 21000000000001 10000100000000 ";
    row("five threads of load, add, store", &increment.repeat(5));
    row("six alike, load, add, store", &format!("{} 02000102030405", increment.repeat(6)));
    row("six alike, two stores", &format!("{} 02000102030405", format!("01 {}", store(0).repeat(2)).repeat(6)));
    let across: String = (0..3).map(|t| format!("01 {}", format!("{}{}", store(t), load((t + 1) % 3)).repeat(2))).collect();
    row("three threads that store and load, a ring", &across);
}
