//! The library's list beside a walk over every full schedule in plain Rust, which keeps the least of each class: both lists compared byte
//! for byte, both times of one run. Of the programs in the files that it is given, or of some that are known. Its exit status is 1 where
//! two lists differ, and where the library is slower on one of the known.
use std::process::ExitCode;
use tarczolin_tests::beside::{increments, Beside};
use tarczolin_tests::files::lines;
use tarczolin_tests::oracle::decode::decode;
use tarczolin_tests::table::row_by;

/// Prints one program's lines.
fn report(name: &str, file: &[u8], rounds: usize) -> Beside {
    let both = Beside::of(file, rounds);
    let walked = &both.walk.given;
    println!("{name}: {} schedules, {} listed, {} bytes of rows", walked.full, walked.listed(), walked.rows.len());
    let milliseconds = |nanoseconds: f64| nanoseconds / 1e6;
    println!(
        "  walk over all {:.3} ms, library {:.3} ms by rows (ratio {:.4}, the walk divided by {:.1}), {:.3} ms by start and continue (ratio {:.4})",
        milliseconds(both.walk.nanoseconds),
        milliseconds(both.rows.nanoseconds),
        1.0 / both.ratio(),
        both.ratio(),
        milliseconds(both.calls.nanoseconds),
        both.calls.nanoseconds / both.walk.nanoseconds
    );
    println!("  {}", both.wrong().unwrap_or("the lists are equal, byte for byte, and the library is no slower"));
    both
}

/// A file of the caller's; whether the lists are the same. A list of a few rows may take longer than the walk.
fn asked(name: &str) -> bool {
    let file = match std::fs::read(name) {
        Ok(file) => file,
        Err(why) => {
            println!("{name}: {why}");
            return false;
        }
    };
    if let Err(refusal) = decode(&file) {
        println!("{name}: refused: {refusal:?}");
        return false;
    }
    report(name, &file, 3).same()
}

/// Reports a known program, and prints its rows of the table: by rows, where that the walk takes longer is asked for, and by calls.
fn is_right((name, file, rounds, asked): &(&str, Vec<u8>, usize, &str)) -> bool {
    let both = report(name, file, *rounds);
    let walked = both.walk.nanoseconds;
    let listed = both.walk.given.listed();
    println!("{}", row_by(&format!("rows, {name}: {listed} listed"), both.rows.nanoseconds, walked, "by the walk", asked));
    println!("{}", row_by("the same by start and continue", both.calls.nanoseconds, walked, "by the walk", ""));
    both.wrong().is_none()
}

fn known() -> bool {
    let two_groups = "01 110000 21000000000001 10000100000000 ".repeat(3) + &"01 110000 21000000000002 10000100000000 ".repeat(2);
    let programs = [
        ("five alike, load, add, store", increments(5, 1, 0, true), 10, "1 / 20"),
        ("five not declared alike", increments(5, 1, 0, false), 5, "1"),
        ("three alike and two alike", lines(&(two_groups + "02000102 020304")), 5, "1"),
        ("six alike, load, add, store", increments(6, 1, 0, true), 2, "1"),
    ];
    // every one is reported, also behind one that is wrong
    programs.iter().filter(|program| !is_right(program)).count() == 0
}

fn main() -> ExitCode {
    let cores = std::thread::available_parallelism().map_or(0, |n| n.get());
    println!("walk and library in turns, the best of several rounds; {cores} cores");
    let files: Vec<String> = std::env::args().skip(1).collect();
    // every one is reported, also behind one that is wrong
    let wrong = files.iter().filter(|name| !asked(name)).count();
    if wrong == 0 && (!files.is_empty() || known()) {
        ExitCode::SUCCESS
    } else {
        ExitCode::FAILURE
    }
}
