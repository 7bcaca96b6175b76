//! The library's list beside the walk over every full schedule, small: as `make walk` has it, with two to four threads.
use std::process::Command;
use tarczolin_tests::beside::{by_rows, by_search, by_searches, increments, schedules, Beside};
use tarczolin_tests::files::path;

/// Threads, how many times each loads, adds 1 and stores, further instructions, whether they are declared alike; schedules, listed.
const KNOWN: [(usize, usize, usize, bool, u64, u64); 7] = [
    (2, 1, 0, true, 6, 2),
    (3, 1, 0, true, 90, 6),
    (3, 1, 0, false, 90, 36),
    (3, 1, 4, true, 90, 6),
    (2, 2, 0, true, 70, 17),
    (4, 1, 0, true, 2_520, 24),
    (4, 1, 0, false, 2_520, 576),
];

#[test]
fn the_lists_are_equal() {
    for (threads, times, further, alike, full, listed) in KNOWN {
        let file = increments(threads, times, further, alike);
        let both = Beside::of(&file, 1);
        assert!(both.same(), "{threads} threads, {times} times");
        assert_eq!((both.walk.given.full, both.walk.given.listed()), (full, listed), "{threads} threads, {times} times");
        assert!(by_search(&file) == both.rows.given && by_searches(&file) == schedules(&both.rows.given));
    }
}

/// What `make walk` goes by finds a row that is missing, one that is another, and one that is twice.
#[test]
fn another_list_is_found() {
    let file = increments(3, 1, 0, true);
    let mut both = Beside::of(&file, 1);
    assert!(both.same());
    let right = by_rows(&file);
    let mut last = right.clone();
    *last.last_mut().unwrap() = 1;
    for other in [right[26..].to_vec(), last, [&right[..26], &right[..]].concat(), by_rows(&increments(3, 1, 0, false))] {
        both.rows.given = other;
        assert_eq!((both.same(), both.wrong()), (false, Some("the lists differ")));
    }
    both.rows.given = right;
    both.walk.nanoseconds = both.rows.nanoseconds / 2.0;
    assert_eq!(both.wrong(), Some("the library is slower"));
    both.walk.nanoseconds = both.rows.nanoseconds;
    assert_eq!(both.wrong(), None);
    both.calls.given.pop();
    assert_eq!(both.wrong(), Some("the lists differ"));
}

/// The program, on files: what it prints, and its exit status.
#[test]
fn by_files() {
    let said = |names: &[&str]| {
        let output = Command::new(env!("CARGO_BIN_EXE_walk")).args(names.iter().map(|name| path(name))).output().unwrap();
        (output.status.code(), String::from_utf8(output.stdout).unwrap())
    };
    let (status, whole) = said(&["examples/whole.hex", "examples/no-thread.hex"]);
    assert!(status == Some(0) && whole.contains("6 schedules, 3 listed, 78 bytes of rows"), "{whole}");
    assert!(whole.contains("1 schedules, 1 listed, 26 bytes of rows") && !whole.contains("differ"), "{whole}");
    let (status, none) = said(&["examples/there-is-no-such-file.hex"]);
    assert_eq!(status, Some(1), "{none}");
    let (status, refused) = said(&["README.md"]);
    assert!(status == Some(1) && refused.contains("refused"), "{refused}");
}
