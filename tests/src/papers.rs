//! The programs of the source papers, with what `tests/programs/INDEX.md` tells of each: counts that the papers publish, and
//! counts by brute force.
use crate::files::read;

/// A program of the index: its file, and the numbers told of it.
pub struct Paper {
    pub name: String,
    pub file: Vec<u8>,
    /// By brute force: how many are listed, and how many of these fail.
    pub listed: u64,
    pub failing: u64,
    pub published: Published,
}

/// What a paper publishes.
#[derive(Clone, Copy, Debug, PartialEq, Eq)]
pub enum Published {
    Nothing,
    /// So many executions.
    All(u64),
    /// So many in which every assume holds; an assume is written as an assertion.
    Complete(u64),
    AtLeast(u64),
}

/// The first number in a text.
fn number(text: &str) -> Option<u64> {
    text.split(|c: char| !c.is_ascii_digit()).find(|word| !word.is_empty())?.parse().ok()
}

/// A cell of the recount: `108 (72), ok 36` is 108 and 72, `4` is 4 and 0, a dash is none.
fn recount(cell: &str) -> Option<(u64, u64)> {
    let failing = cell.split_once('(').and_then(|(_, rest)| number(rest)).unwrap_or(0);
    cell.starts_with(|c: char| c.is_ascii_digit()).then(|| Some((number(cell)?, failing)))?
}

/// One half of a published cell, `ok 36 / ok 6`: without or with exchange of threads.
fn published(half: &str) -> Published {
    let half = half.split('(').next().unwrap_or("");
    let Some(number) = number(half) else { return Published::Nothing };
    match half.trim() {
        half if half.starts_with("ok") => Published::Complete(number),
        half if half.starts_with("at least") => Published::AtLeast(number),
        _ => Published::All(number),
    }
}

/// Every program of the index, without and with its `02` line where there is one.
pub fn all() -> Vec<Paper> {
    let index = String::from_utf8(read("tests/programs/INDEX.md")).expect("text");
    let mut all = Vec::new();
    for row in index.lines().filter(|line| line.starts_with("| 0")) {
        let cells: Vec<&str> = row.split('|').map(str::trim).collect();
        let halves: Vec<&str> = cells[3].split('/').collect();
        for (suffix, half, cell) in [("", halves[0], cells[4]), ("-alike", halves[1], cells[5])] {
            if let Some((listed, failing)) = recount(cell) {
                let name = format!("{}{suffix}", cells[1]);
                let file = read(&format!("tests/programs/{name}.hex"));
                all.push(Paper { name, file, listed, failing, published: published(half) });
            }
        }
    }
    all
}
