//! Judging a graph.
use crate::timing::best_of;
use std::hint::black_box;
use tarczolin_tests::calls::{self, Answer};
use tarczolin_tests::files::lines;
use tarczolin_tests::oracle::calls::{graph, judge};
use tarczolin_tests::table;

/// Prints the best times for a graph text, which both judge alike.
fn judged(name: &str, file: &[u8], text: &[u8]) {
    let mut out = [0; 24];
    let yes = matches!(calls::judge(file, text, &mut out), Answer::Answered(_));
    assert_eq!(yes, judge(file, text, 24).unwrap().is_some(), "both agree");
    let (library, plain) = best_of(
        100,
        20,
        || calls::judge(black_box(file), black_box(text), &mut out),
        || judge(black_box(file), black_box(text), 24).is_ok(),
    );
    let answer = if yes { "yes" } else { "no" };
    println!("{}", table::row(&format!("judging, {answer}: {name}"), library, plain, "4"));
}

/// For the graph of a schedule.
fn row(name: &str, words: &str, schedule: &[u8]) {
    let file = lines(words);
    judged(name, &file, &graph(&file, schedule, 512).unwrap());
}

const ADD: &str = "1200000000000001 ";
const SWAP: &str = "13000000000000000000000001 ";
const INCREMENT: &str = "110000 21000000000001 10000100000000 ";
const SUMS: &str = "01 1200000000000001 21000100000000 1201010100000000 13020201000000000100000001 23020000000000 110303 ";

/// Graphs of schedules: yes.
fn graphs() {
    row("the pair of document 01", "01 10000000000001 110001 01 10010000000001 110000", &[0, 0, 1, 1]);
    for many in [6, 12] {
        let two = format!("01 {} 01 {}", "10000000000001 ".repeat(many), "110000 ".repeat(many));
        row(&format!("{many} stores beside {many} loads"), &two, &[0, 1].repeat(many));
    }
    let around: Vec<u8> = (0..24).map(|k| k % 6).collect();
    let back: Vec<u8> = around.iter().rev().copied().collect();
    row("six fetch and adds", &format!("01 {ADD}").repeat(6), &around[..6]);
    row("six threads of four accesses", &SUMS.repeat(6), &around);
    row("six threads of four fetch and adds, the last first", &format!("01 {}", ADD.repeat(4)).repeat(6), &back);
    row("three compare and swaps", &format!("01 {SWAP}").repeat(3), &around[..3]);
    row("six threads of four compare and swaps", &format!("01 {}", SWAP.repeat(4)).repeat(6), &around);
    row(
        "five alike threads of load, add 1, store",
        &format!("{} 020001020304", format!("01 {INCREMENT}").repeat(5)),
        &[0, 1, 2, 3, 4].repeat(2),
    );
    row("one store", "01 10000000000001", &[0]);
    row("one empty thread", "01", &[]);
}

/// Graphs that cannot be: no.
fn others() {
    let pair = lines("01 10000000000001 110001 01 10010000000001 110000");
    judged("the pair of document 01, both loads 0", &pair, b"400001ffff\n400101ffff\n41000000\n41010100\n");
    let adds = lines(&format!("01 {ADD} 01 {ADD}"));
    judged("two fetch and adds that read from each other", &adds, b"4000000100\n4001000000\n410000000100\n");
    let around = format!("01 {}", ADD.repeat(4)).repeat(6);
    let reads: String =
        (0..24).map(|k| format!("40{:02x}{:02x}{:02x}{:02x} ", k / 4, k % 4, (k + 1) % 24 / 4, (k + 1) % 4)).collect();
    let order: String = (0..24).map(|k| format!("{:02x}{:02x}", k / 4, k % 4)).collect();
    judged("24 fetch and adds in a circle", &lines(&around), &lines(&format!("{reads} 4100{order}")));
    let alone = lines(&format!("01 {ADD}"));
    judged("a fetch and add that reads from itself", &alone, b"4000000000\n41000000\n");
    judged("one store, and no line for it", &lines("01 10000000000001"), b"");
}

pub fn report() {
    println!(
        "tarczolin_judge beside the definition in plain Rust (values by rounds, every edge, a search for a cycle from every"
    );
    println!("event, then the least order; ordered maps): written to be read, not to be fast (asked: at most 4)");
    graphs();
    others();
}
