//! How the time of a list grows, with the threads and with their instructions: a table, and a picture in docs/.
use crate::chart::{Chart, Line};
use std::hint::black_box;
use std::path::PathBuf;
use std::time::{Duration, Instant};
use tarczolin_tests::beside::{by_calls, by_rows, by_search, by_searches, increments, schedules, timed};
use tarczolin_tests::files::path;
use tarczolin_tests::oracle::decode::decode;
use tarczolin_tests::search::walk::walk;
use tarczolin_tests::share;

/// What is measured, in the order of a point's times.
const MEASURED: [&str; 5] = [
    "walk over all, plain Rust",
    "rows, library",
    "rows, plain Rust",
    "start and continue, library",
    "start and continue, plain Rust",
];

/// One program: its place on the axis, how many full schedules it has, how many are listed, and the least times in nanoseconds.
struct Point {
    at: usize,
    full: u64,
    listed: u64,
    times: [f64; 5],
}

/// Measured in turns for a while, the walk once where it takes longer. All lists must be the same.
fn measured(at: usize, file: &[u8]) -> Point {
    let mut walked = timed(|| walk(&decode(black_box(file)).unwrap()));
    let began = Instant::now();
    let mut rows = timed(|| by_rows(black_box(file)));
    let mut searched = timed(|| by_search(black_box(file)));
    let mut called = timed(|| by_calls(black_box(file)));
    let mut nexts = timed(|| by_searches(black_box(file)));
    for round in 1..share::of(200) {
        if round > 3 && began.elapsed() > Duration::from_millis(500) {
            break;
        }
        rows.again(|| by_rows(black_box(file)));
        searched.again(|| by_search(black_box(file)));
        called.again(|| by_calls(black_box(file)));
        nexts.again(|| by_searches(black_box(file)));
        if walked.nanoseconds < 1e8 {
            walked.again(|| walk(&decode(black_box(file)).unwrap()));
        }
    }
    let list = &walked.given.rows;
    assert!(
        [&rows.given, &searched.given] == [list; 2] && [called.given, nexts.given] == [(); 2].map(|_| schedules(list)),
        "one list"
    );
    let times = [walked.nanoseconds, rows.nanoseconds, searched.nanoseconds, called.nanoseconds, nexts.nanoseconds];
    Point { at, full: walked.given.full, listed: walked.given.listed(), times }
}

/// Prints a series as rows of a table, and gives it as lines of the picture.
fn series(title: &str, axis: &str, points: Vec<Point>) -> Chart {
    println!("{title}");
    println!("| {axis} | Schedules | Listed | {} | Rows ratio | Calls ratio | Walk over rows |", MEASURED.join(" | "));
    for point in &points {
        let times = point.times.map(|time| format!("{:.1} us", time / 1e3));
        let [walk, rows, searched, called, nexts] = point.times;
        println!(
            "| {} | {} | {} | {} | {:.2} | {:.2} | {:.1} |",
            point.at,
            point.full,
            point.listed,
            times.join(" | "),
            rows / searched,
            called / nexts,
            walk / rows
        );
    }
    let line = |(k, name): (usize, &&str)| Line {
        name: name.to_string(),
        values: points.iter().map(|p| (p.at, p.times[k] / 1e3)).collect(),
    };
    Chart { title: title.to_string(), axis: axis.to_string(), lines: MEASURED.iter().enumerate().map(line).collect() }
}

pub fn report() {
    println!("The whole list, each thread load, add 1, store at location 0; in turns, the least of many rounds");
    let threads = (2..=6).map(|n| measured(n, &increments(n, 1, 0, true))).collect();
    let more = (1..=5).map(|times| measured(3 * times, &increments(2, times, 0, true))).collect();
    let idle = (0..=4).map(|k| measured(3 + 3 * k, &increments(4, 1, 3 * k, true))).collect();
    let charts = [
        series("Alike threads, each load, add 1, store", "Threads", threads),
        series("Two alike threads, load, add 1, store again and again", "Instructions a thread", more),
        series("Four alike threads, load, add 1, store, then register adds", "Instructions a thread", idle),
    ];
    let file = std::env::var_os("BENCH_PICTURE").map_or_else(|| path("docs/listing-time.svg"), PathBuf::from);
    let name = file.file_name().unwrap_or_default().to_string_lossy();
    match std::fs::write(&file, crate::chart::drawn(&charts)) {
        Ok(()) => println!("drawn in {name}"),
        Err(why) => println!("{name}: {why}"),
    }
}
