//! Runs the command as a user does.
#![allow(dead_code, reason = "not every test file uses all of it")]
pub mod json;

use std::io::Write;
use std::path::PathBuf;
use std::process::{Command, Stdio};

/// How a run ended: its exit status, and what it wrote.
#[derive(Debug, PartialEq, Eq)]
pub struct Ran {
    pub status: i32,
    pub out: String,
    pub err: String,
}

/// `tarczolin` with these words, to be run from the top of the repository.
pub fn tool(words: &[&str]) -> Command {
    let mut command = Command::new(env!("CARGO_BIN_EXE_tarczolin"));
    command.args(words).current_dir(concat!(env!("CARGO_MANIFEST_DIR"), "/../.."));
    command
}

/// Runs it with this standard input.
pub fn run_with(words: &[&str], input: &[u8]) -> Ran {
    let mut child =
        tool(words).stdin(Stdio::piped()).stdout(Stdio::piped()).stderr(Stdio::piped()).spawn().expect("the command starts");
    let mut stdin = child.stdin.take().expect("a pipe");
    // a command that does not read its input closes it
    let _ = stdin.write_all(input);
    drop(stdin);
    let output = child.wait_with_output().expect("the command ends");
    let text = |bytes| String::from_utf8(bytes).expect("text");
    Ran { status: output.status.code().expect("an exit status"), out: text(output.stdout), err: text(output.stderr) }
}

impl Ran {
    /// A check that found a program and nothing to warn of.
    pub fn is_accepted(&self) -> bool {
        self.status == 0 && self.out.starts_with("accepted: ") && self.out.lines().count() == 1 && self.err.is_empty()
    }
}

pub fn run(words: &[&str]) -> Ran {
    run_with(words, b"")
}

/// An execution in columns without the statements of its text, which stand at the end of lines as `9 | store x 1`.
pub fn without_statements(text: &str) -> String {
    let bare = |line: &str| {
        let (front, _) = line.split_once(" | ").filter(|_| line.starts_with(['#', '!'])).unwrap_or((line, ""));
        let is_line = front.len() < line.len();
        format!("{}\n", if is_line { front.trim_end_matches(|c: char| c.is_ascii_digit()).trim_end() } else { line })
    };
    text.lines().map(bare).collect()
}

/// A folder for what a test file writes: not below the repository, where `rt ci` wants no link and no other crates.txt.
pub fn folder(name: &str) -> PathBuf {
    let place = env!("CARGO_MANIFEST_DIR").replace('/', "-");
    let folder = std::env::temp_dir().join(format!("tarczolin{place}")).join(name);
    std::fs::create_dir_all(&folder).expect("a folder");
    folder
}
