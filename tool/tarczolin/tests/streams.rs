//! Standard output that is closed, early or from the start, and input that does not end.
mod common;

use common::{run, tool};
use std::io::{BufRead, BufReader, Write};
use std::process::{Command, Stdio};
use tarczolin_tests::files::lines;

/// Eight stores beside eight loads and an assertion: 12,870 listed, more than a pipe holds.
fn long(assertion: &str) -> Vec<u8> {
    lines(&format!("01 {} 01 {} {assertion}", "10000000000001 ".repeat(8), "110000 ".repeat(8)))
}

/// The status of a command whose reader takes one line and closes the pipe.
fn status_behind_head(words: &[&str], program: &[u8]) -> Option<i32> {
    let mut child = tool(words).stdin(Stdio::piped()).stdout(Stdio::piped()).stderr(Stdio::piped()).spawn().unwrap();
    child.stdin.take().unwrap().write_all(program).unwrap();
    let mut line = String::new();
    BufReader::new(child.stdout.take().unwrap()).read_line(&mut line).unwrap();
    assert!(!line.is_empty());
    let output = child.wait_with_output().unwrap();
    assert!(!String::from_utf8_lossy(&output.stderr).contains("cannot be written"), "a closed pipe is no error");
    output.status.code()
}

/// `list | head` under pipefail: what was listed so far counts.
#[test]
fn status_earned_before_the_pipe_was_closed() {
    let (failing, holding) = (long("23000000000009"), long("23000000000001"));
    for words in [&["list", "-"][..], &["list", "-", "--jobs", "3"], &["show", "-"]] {
        assert_eq!(status_behind_head(words, &failing), Some(1), "{words:?}: the first one fails");
        assert_eq!(status_behind_head(words, &holding), Some(0), "{words:?}: only the last one fails");
    }
    assert_eq!(status_behind_head(&["show", "-", "--html", "-"], &holding[..]), Some(1), "a page is made of the whole list");
}

/// The same in a shell.
#[test]
fn head_under_pipefail() {
    let shell = |program: &str| {
        let script = format!("set -o pipefail; '{}' list {program} | head -n 1", env!("CARGO_BIN_EXE_tarczolin"));
        let top = concat!(env!("CARGO_MANIFEST_DIR"), "/../..");
        let output = Command::new("bash").args(["-c", &script]).current_dir(top).output().expect("bash starts");
        (output.status.code(), String::from_utf8(output.stdout).unwrap())
    };
    assert_eq!(shell("examples/queue-broken.hex"), (Some(1), "500000000101020202\n".to_string()));
    assert_eq!(shell("examples/queue-repaired.hex").0, Some(0));
}

/// A closed standard output: the command says so and does not seem to have answered.
#[test]
fn closed_standard_output() {
    let top = concat!(env!("CARGO_MANIFEST_DIR"), "/../..");
    let file = "examples/whole.hex";
    for words in ["list", "count", "violation", "show", "check", "disasm"] {
        let script = format!("exec '{}' {words} {file} >&-", env!("CARGO_BIN_EXE_tarczolin"));
        let output = Command::new("sh").args(["-c", &script]).current_dir(top).output().unwrap();
        assert_eq!(output.status.code(), Some(2), "{words}");
        assert!(String::from_utf8_lossy(&output.stderr).contains("standard output is closed"), "{words}");
    }
    let output = tool(&["count", file]).stdout(Stdio::null()).output().unwrap();
    assert_eq!(output.status.code(), Some(0), "/dev/null is open");
}

/// A standard output that takes nothing.
#[test]
fn full_standard_output() {
    for words in [&["list", "examples/queue-broken.hex"][..], &["count", "examples/queue-broken.hex"]] {
        let full = std::fs::File::options().write(true).open("/dev/full").unwrap();
        let output = tool(words).stdout(full).output().unwrap();
        assert_eq!(output.status.code(), Some(2), "{words:?}");
        assert!(String::from_utf8_lossy(&output.stderr).contains("the output cannot be written"), "{words:?}");
    }
}

/// A file without end is read up to the limit of its kind.
#[test]
fn input_without_end() {
    for words in [&["check"][..], &["list"], &["count"], &["violation"], &["show"], &["disasm"]] {
        let ran = run(&[words, &["/dev/zero"]].concat());
        assert_eq!(ran.status, 2);
        assert!(ran.err.contains("refusal 1: the file is longer than 4096 bytes"), "{words:?}: {}", ran.err);
    }
    let pair = "examples/store-load-pair.hex";
    for words in [&["asm", "/dev/zero"][..], &["judge", pair, "/dev/zero"]] {
        let ran = run(words);
        assert_eq!((ran.status, ran.out.as_str()), (2, ""));
        assert!(ran.err.contains("/dev/zero: the text is longer than 1048576 bytes"), "{words:?}: {}", ran.err);
    }
    let zero = std::fs::File::open("/dev/zero").unwrap();
    let output = tool(&["graph", pair, "-"]).stdin(zero).output().unwrap();
    assert_eq!(output.status.code(), Some(2));
}

/// 4,096 bytes are read whole.
#[test]
fn the_longest_file() {
    let ran = common::run_with(&["check", "-"], &[b'0'; 4096]);
    assert!(ran.status == 2 && ran.err.contains("refusal 2 at line 1"), "{}", ran.err);
    let ran = common::run_with(&["check", "-"], &[b'0'; 4097]);
    assert!(ran.status == 2 && ran.err.contains("refusal 1"), "{}", ran.err);
}

/// A closed standard input is no empty program, wherever it would be read; a command that reads none does not mind.
#[test]
fn closed_standard_input() {
    let top = concat!(env!("CARGO_MANIFEST_DIR"), "/../..");
    let pair = "examples/store-load-pair.hex";
    let closed = |words: &str| {
        let script = format!("exec '{}' {words} <&-", env!("CARGO_BIN_EXE_tarczolin"));
        let output = Command::new("sh").args(["-c", &script]).current_dir(top).output().unwrap();
        (output.status.code(), String::from_utf8(output.stdout).unwrap(), String::from_utf8(output.stderr).unwrap())
    };
    let alone = ["check", "list", "count", "violation", "outcomes", "show", "asm", "disasm"].map(|name| format!("{name} -"));
    let others =
        [format!("judge {pair} -"), format!("graph {pair} -"), format!("covers {pair} -"), "join -".into(), "users".into()];
    for words in alone.iter().chain(&others) {
        let (status, out, err) = closed(words);
        assert_eq!((status, out.as_str()), (Some(2), ""), "{words}");
        assert_eq!(err, "tarczolin: standard input: it is closed; there is nothing to read\n", "{words}");
    }
    assert_eq!(closed(&format!("count {pair}")).0, Some(0));
}

/// A text that comes through a pipe is read once, however long it is.
#[test]
fn a_long_text_through_a_pipe() {
    let form =
        format!("thread\n  store x 1\n{}  n = load x\n", "# a remark of some length that says nothing at all\n".repeat(200));
    let file = common::folder("streams").join("long");
    std::fs::write(&file, form).unwrap();
    let script = format!("'{}' disasm <(cat '{}')", env!("CARGO_BIN_EXE_tarczolin"), file.display());
    let output = Command::new("bash").args(["-c", &script]).output().expect("bash starts");
    let (out, err) = (String::from_utf8(output.stdout).unwrap(), String::from_utf8(output.stderr).unwrap());
    assert_eq!(output.status.code(), Some(0), "{err}");
    assert!(out.ends_with("  n = load x\n") && out.lines().count() > 200, "{out}");
}
