//! With --jobs the output is byte for byte that of one job, and the pieces hold the whole range of schedules.
mod common;

use common::{run, run_with};
use tarczolin::jobs::bounds;
use tarczolin::program::Program;
use tarczolin_tests::files::{lines, text};
use tarczolin_tests::oracle::calls::report;
use tarczolin_tests::oracle::decode::decode;
use tarczolin_tests::oracle::machine::run_full;
use tarczolin_tests::random::program::{frames, Size, ANY, SMALL};
use tarczolin_tests::random::{schedule, Random};
use tarczolin_tests::share;

fn same(file: &[u8], jobs: &[&str]) {
    let list = run_with(&["list", "-"], file);
    let count = run_with(&["count", "-"], file);
    for jobs in jobs {
        assert_eq!(run_with(&["list", "-", "--jobs", jobs], file), list, "list --jobs {jobs}: {}", file.escape_ascii());
        assert_eq!(run_with(&["count", "-", "--jobs", jobs], file), count, "count --jobs {jobs}: {}", file.escape_ascii());
    }
}

#[test]
fn output_is_that_of_one_job() {
    let mut random = Random::new(61);
    let six = Size { threads: 6, instructions: 3, accesses: 8, ..SMALL };
    for k in 0..share::of(150) {
        same(&text(&frames(&mut random, if k % 2 == 0 { SMALL } else { six })), &["2", "5"]);
    }
}

#[test]
fn output_is_that_of_one_job_on_longer_lists() {
    for name in ["000-ttaslock-4", "000-ttaslock-4-alike", "002-fig3a-6", "000-fais-6", "002-fib-bench-3"] {
        let name = format!("tests/programs/{name}.hex");
        let [one, many] = ["1", "8"].map(|jobs| run(&["list", &name, "--jobs", jobs]));
        assert!(one == many && one.out.lines().count() > 100, "{name}");
        let [one, many] = ["1", "8"].map(|jobs| run(&["count", &name, "--jobs", jobs]));
        assert_eq!(one, many, "{name}");
    }
}

/// A list of many calls and parts: what brute force prints, whatever the number of jobs.
#[test]
fn output_of_many_parts() {
    let file = lines(&format!("01 {} 01 {} 23000000000001", "10000000000001 ".repeat(7), "110000 ".repeat(7)));
    let printed = String::from_utf8(report(&file)).unwrap();
    assert_eq!(printed.lines().count(), 3_432 + 1);
    for jobs in ["1", "2", "3", "16"] {
        assert!(run_with(&["list", "-", "--jobs", jobs], &file).out == printed, "--jobs {jobs}");
    }
    same(&file, &["2", "7"]);
}

/// A refusal is the same too, with more jobs than there are schedules, and where there is no step at all.
#[test]
fn small_and_refused_files() {
    for text in ["01\n", "", "01\n99\n", "01\n23000000000001\n", "01\n110000\n"] {
        same(text.as_bytes(), &["2", "64"]);
    }
}

/// The bounds are full schedules, ascending, and no full schedule is larger than the last.
#[test]
fn bounds_are_full_schedules() {
    let mut random = Random::new(62);
    for _ in 0..share::of(2_000) {
        let file = text(&frames(&mut random, ANY));
        let program = decode(&file).unwrap();
        let wanted = random.between(1, 300);
        let bounds = bounds(&Program::of_accepted(&file), wanted);
        assert!(bounds.windows(2).all(|pair| pair[0] < pair[1]), "ascending");
        assert!(bounds.iter().all(|bound| run_full(&program, bound).is_ok()), "full");
        let some = schedule::full(&mut random, &program);
        assert!(some.as_slice() <= &bounds[bounds.len() - 1][..], "none is larger");
    }
}
