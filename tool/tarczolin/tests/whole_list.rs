//! show on lists longer than a page: totals and exit status are those of the whole list, whatever is shown of it.
mod common;

use common::{folder, run, run_with, Ran};
use std::fs;
use tarczolin_tests::files::lines;

/// Seven stores beside seven loads and an assertion: 3,432 listed, and only the last one fails.
fn one_failing() -> Vec<u8> {
    lines(&format!("01 {} 01 {} 23000000000001", "10000000000001 ".repeat(7), "110000 ".repeat(7)))
}

/// The same with an assertion that never holds: all 3,432 fail.
fn all_failing() -> Vec<u8> {
    lines(&format!("01 {} 01 {} 23000000000009", "10000000000001 ".repeat(7), "110000 ".repeat(7)))
}

/// The page of a program, and how the command ended.
fn page(name: &str, program: &[u8], words: &[&str]) -> (Ran, String) {
    let at = folder("whole_list").join(format!("{name}.html"));
    let to = at.display().to_string();
    let ran = run_with(&[&["show", "-", "--html", &to], words].concat(), program);
    let said = Ran { out: ran.out.replace(&to, "PAGE"), err: ran.err.replace(&to, "PAGE"), ..ran };
    (said, fs::read_to_string(at).unwrap())
}

fn sections(page: &str) -> usize {
    page.matches("<section ").count()
}

/// The one that fails stands far behind the 500 that a page holds, and yet is told of and shown, in front of the others.
#[test]
fn the_failing_one_is_never_left_out() {
    let (ran, text) = page("one", &one_failing(), &[]);
    assert_eq!(ran.status, 1);
    assert_eq!(ran.out, "3432 executions, 1 failing; 500 of them, 1 failing, in PAGE\n");
    assert!(ran.err.contains("2932 more, 0 failing, are left out of the page"), "{}", ran.err);
    assert!(text.contains("3432 executions, <b>1 failing</b>") && text.contains("2932 more, 0 failing, are left out"));
    assert_eq!(sections(&text), 500);
    assert!(text.find("id=\"e3432\" class=\"fails\"").unwrap() < text.find("id=\"e1\"").unwrap(), "the failing one first");
    assert!(text.contains("id=\"e499\"") && !text.contains("id=\"e500\""));
}

#[test]
fn more_failing_ones_than_a_page_holds() {
    let (ran, text) = page("all", &all_failing(), &[]);
    assert_eq!((ran.status, sections(&text)), (1, 500));
    assert!(ran.out.starts_with("3432 executions, 3432 failing; 500 of them, 500 failing, in"), "{}", ran.out);
    assert!(ran.err.contains("2932 more, 2932 failing, are left out"), "{}", ran.err);
    let (ran, text) = page("all-from", &all_failing(), &["--from", "3000"]);
    assert!(ran.err.is_empty() && sections(&text) == 433, "{}", ran.err);
    assert!(text.contains("3432 executions, <b>3432 failing</b>. This page shows 433 of them, 433 failing."));
}

/// What is not chosen is counted all the same.
#[test]
fn only_failing_tells_how_many_are_listed() {
    let (ran, text) = page("only", &one_failing(), &["--only", "failing"]);
    assert_eq!((ran.status, sections(&text), ran.err.as_str()), (1, 1, ""));
    assert_eq!(ran.out, "3432 executions, 1 failing; 1 of them, 1 failing, in PAGE\n");
    assert!(text.contains("3432 executions, <b>1 failing</b>. This page shows 1 of them, 1 failing."));
    let (ran, text) = page("none", &one_failing(), &["--from", "4000"]);
    assert_eq!((ran.status, sections(&text)), (1, 0));
    assert!(text.contains("3432 executions, <b>1 failing</b>"));
}

/// The exit status of the columns is that of the whole list too.
#[test]
fn columns_end_by_the_whole_list() {
    let nothing = "nothing to show: none of the listed executions is chosen (3432 listed, 1 failing)\n";
    let ran = run_with(&["show", "-", "--from", "4000"], &one_failing());
    assert_eq!((ran.status, ran.out.as_str()), (1, nothing));
    let ran = run_with(&["show", "-", "--from", "3430"], &one_failing());
    assert_eq!((ran.status, ran.out.matches("execution ").count()), (1, 3));
}

/// The page never takes the place of the program that it shows, by whatever path it is named.
#[test]
fn the_input_is_not_overwritten() {
    let program = lines("01 110000");
    let folder = folder("whole_list");
    let [file, soft, hard] = ["input.hex", "soft.hex", "hard.hex"].map(|name| folder.join(name));
    for old in [&file, &soft, &hard] {
        let _ = fs::remove_file(old);
    }
    fs::write(&file, &program).unwrap();
    std::os::unix::fs::symlink(&file, &soft).unwrap();
    fs::hard_link(&file, &hard).unwrap();
    let another = folder.join("../whole_list/./input.hex");
    let names = [&file, &soft, &hard, &another].map(|path| path.display().to_string());
    for input in &names {
        for page in &names {
            let ran = run(&["show", input, "--html", page]);
            assert_eq!((ran.status, ran.out.as_str()), (2, ""), "{input} {page}");
            assert!(ran.err.contains("would overwrite the program"), "{}", ran.err);
        }
    }
    let piped = std::process::Command::new(env!("CARGO_BIN_EXE_tarczolin"))
        .args(["show", "-", "--html", &names[0]])
        .stdin(fs::File::open(&file).unwrap())
        .output();
    assert_eq!(piped.unwrap().status.code(), Some(2), "standard input comes from the file");
    assert_eq!(fs::read(&file).unwrap(), program);
}

#[test]
fn a_page_on_standard_output() {
    let (_, text) = page("same", &lines("01 110000"), &[]);
    let ran = run_with(&["show", "-", "--html", "-"], &lines("01 110000"));
    assert_eq!(ran, Ran { status: 0, out: text, err: String::new() });
}
