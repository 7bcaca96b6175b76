//! The graph of a schedule.
use crate::timing::best;
use std::hint::black_box;
use tarczolin_tests::calls;
use tarczolin_tests::files::lines;
use tarczolin_tests::oracle::calls::graph;
use tarczolin_tests::table;

/// Prints the best times for one program and a full schedule.
fn row(name: &str, words: &str, schedule: &[u8]) {
    let file = lines(words);
    let mut out = [0; 512];
    let (library, plain) =
        best(|| calls::graph(black_box(&file), schedule, &mut out), || graph(black_box(&file), schedule, 512).is_ok());
    println!("{}", table::row(&format!("the graph call, {name}"), library, plain, ""));
}

pub fn report() {
    println!("tarczolin_graph beside plain Rust, which decodes, replays, keeps the graph in ordered maps and writes its text");
    let accesses = |kinds: &str| format!("01 {} ", kinds.repeat(12));
    let alternating: Vec<u8> = (0..24).map(|k| k % 2).collect();
    row("12 stores beside 12 loads", &(accesses("10000000000001 ") + &accesses("110000 ")), &alternating);
    let sums = "01 1200000000000001 21000100000000 1201010100000000 13020201000000000100000001 23020000000000 110303 ";
    let six: Vec<u8> = (0..24).map(|k| k % 6).collect();
    row("six threads of four accesses", &sums.repeat(6), &six);
}
