//! The wrong file for a command, and other slips: what is said helps.
mod common;

use common::{folder, run, run_with};

/// Bad usage or a refusal, in these words.
fn said(words: &[&str], input: &[u8], part: &str) {
    let ran = run_with(words, input);
    assert!(ran.status == 2 && ran.out.is_empty() && ran.err.contains(part), "{words:?}: {}{}", ran.out, ran.err);
}

#[test]
fn another_kind_of_file() {
    said(
        &["show", "-"],
        b"X86 SB\n{ }\n",
        "refusal 2 at line 1: column 1 has the character X; only 0-9, a-f and A-F may stand in a line, or # at its front; \
        this is a litmus test: import-litmus makes a program of it",
    );
    said(&["check", "-"], b"Thread\n", "begins with thread, by small letters");
    said(&["asm", "examples/whole.hex"], b"", "this is a program file already; disasm makes a text of it");
    said(&["import-litmus", "examples/whole.hex"], b"", "the first line of a litmus test names X86 and the test");
    said(&["judge", "examples/whole.hex", "examples/whole.hex"], b"", "lines begin with 40 or 41");
    said(&["join", "examples/whole.hex"], b"", "this line does not go on with the list: 01");
    said(&["check", "examples"], b"", "examples: Is a directory");
    said(&["check", ""], b"", "a file without a name: No such file");
}

#[test]
fn another_kind_of_word() {
    let file = folder("slips").join("file").display().to_string();
    std::fs::write(&file, "").unwrap();
    said(&["show", "examples/whole.hex", "--svg", &file], b"", &format!("--svg takes a folder, and {file} is none"));
    said(&["show", "examples/whole.hex", "--html", "examples"], b"", "examples: Is a directory");
    said(&["show", "examples/whole.hex", "--from", "0"], b"", "--from takes a number from 1 on, not 0");
    said(&["graph", "examples/whole.hex", "00010g"], b"", "it takes two digits (0-9, a-f) a step");
    said(&["outcomes", "examples/whole.hex", "--where", "x0 <= 1"], b"", "the character < has no meaning here");
    assert_eq!(run(&["outcomes", "examples/whole.hex", "--where", "x0 = 1 && x1 = 0 || false"]).status, 1, "as in C");
}

/// Statements that other languages have, and threads by the names that they have without one.
#[test]
fn statements_of_other_languages() {
    said(&["check", "-"], b"thread\n  a = 1\n  a -= 1\n", ":3:3: there is no -=; a negative number is added: a += -1\n");
    said(&["check", "-"], b"thread\n  a = 1\n  a-=1\n", ":3:3: there is no -=; a negative number is added: a += -1\n");
    let front = ":2:7: behind = stands a number, a register, load, fetch_add or cas, not";
    said(&["check", "-"], b"thread\n  a = xchg x 1\n", &format!("{front} xchg with operands\n"));
    said(&["check", "-"], b"thread\n  a = lod x\n", &format!("{front} lod with operands; is it load?\n"));
    let wanted = ":2:3: a statement does not begin with mfence; the fence of the text form is fence\n";
    said(&["check", "-"], b"thread\n  mfence\n", wanted);
    for (fence, kept) in [("lfence", "loads"), ("sfence", "stores")] {
        let wanted =
            format!(":2:3: there is no {fence}, leave it out: x86 keeps the order of {kept} without it; fence is MFENCE\n");
        said(&["check", "-"], format!("thread\n  {fence}\n").as_bytes(), &wanted);
    }
    let named = b"thread T0\n  store x 1\nthread T1\n  store x 1\nalike T0 T1\n";
    assert_eq!(run_with(&["count", "-"], named).out, "1 listed, 0 failing\n");
    assert_eq!(run_with(&["asm", "-", "--remarks"], named).out.lines().filter(|line| line.starts_with("# name T")).count(), 0);
    said(&["check", "-"], b"thread T1\n", ":1:8: T1 is what thread number 1 is called without a name; this is number 0\n");
}

/// What each statement costs is told where there are too many instructions.
#[test]
fn what_statements_cost() {
    let many = format!("thread\n  n = load x\n{}  fail\n", "  if n == 1 goto end\n".repeat(8)) + "  n = 2\nend:\n";
    let costs = "line 2 takes 1, lines 3 to 11 take 2 each, line 12 takes 1";
    let wanted = format!(":10:3: this is instruction number 17 of its thread; a thread has at most 16; {costs}\n");
    said(&["check", "-"], many.as_bytes(), &wanted);
}

#[test]
fn threads_behind_hostile() {
    let queue = "examples/queue-broken.asm";
    said(
        &["force", queue, "--hostile", "9"],
        b"",
        "there is no thread 9; the program has first, second, consumer, numbered from 0\n",
    );
    said(&["force", queue, "--hostile", "frst"], b"", "--hostile: there is no thread frst; is it first?\n");
    assert_eq!(run(&["force", queue, "--hostile", "T0,T1"]), run(&["force", queue, "--hostile", "first,second"]));
}
