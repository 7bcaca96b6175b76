//! What is wrong with a text, and where: line and column from 1.
use super::statement::{Statement, Word};

/// The lines that had a line made, to stand behind a message about it.
pub fn used(uses: &[usize]) -> String {
    let lines: Vec<String> = uses.iter().rev().map(|line| format!("line {line}")).collect();
    if lines.is_empty() {
        String::new()
    } else {
        format!("; here by {}", lines.join(", by "))
    }
}

#[derive(Clone, Debug, PartialEq, Eq, PartialOrd, Ord)]
pub struct Wrong {
    pub line: usize,
    pub column: usize,
    pub message: String,
}

/// All that is wrong with a text so far.
#[derive(Debug, Default)]
pub struct Wrongs {
    all: Vec<Wrong>,
    /// Lines that could not be read at all: what they would have said is not known.
    unread: Vec<String>,
}

impl Wrongs {
    /// What is wrong with the lines of a text that could not be read.
    pub fn of_lines(text: &[u8], all: Vec<Wrong>) -> Wrongs {
        let lines: Vec<&[u8]> = text.split(|&c| c == b'\n').collect();
        let unread = all.iter().map(|wrong| String::from_utf8_lossy(lines[wrong.line - 1]).into_owned()).collect();
        Wrongs { all, unread }
    }

    /// A message about a word of a statement.
    pub fn add(&mut self, statement: &Statement, word: &Word, message: String) {
        let message = message + &used(&statement.uses);
        self.all.push(Wrong { line: statement.line, column: word.column, message });
    }

    pub fn extend(&mut self, statement: &Statement, word: &Word, message: Option<String>) {
        if let Some(message) = message {
            self.add(statement, word, message);
        }
    }

    /// A message about a whole statement.
    pub fn add_at(&mut self, statement: &Statement, message: String) {
        let message = message + &used(&statement.uses);
        self.all.push(Wrong { line: statement.line, column: statement.column, message });
    }

    /// Could a line that was not read have said what this name is?
    pub fn may_be_said(&self, name: &str) -> bool {
        let words = |line: &str| line.split(|c: char| !c.is_alphanumeric() && c != '_').any(|word| word == name);
        self.unread.iter().any(|line| words(line))
    }

    /// Were all lines read?
    pub fn all_read(&self) -> bool {
        self.unread.is_empty()
    }

    /// All in order; none where nothing is wrong.
    pub fn sorted(mut self) -> Vec<Wrong> {
        self.all.sort();
        self.all.dedup();
        self.all
    }

    pub fn is_empty(&self) -> bool {
        self.all.is_empty()
    }
}
