//! Parts of a test that know where they stand.
use crate::asm::Wrong;

/// So many errors are told at most.
pub const MOST: usize = 100;

/// A part of a text, from one byte to another.
#[derive(Clone, Copy, Debug)]
pub struct Part<'a> {
    whole: &'a str,
    from: usize,
    to: usize,
}

impl<'a> Part<'a> {
    pub fn whole(text: &'a str) -> Part<'a> {
        Part { whole: text, from: 0, to: text.len() }
    }

    pub fn text(&self) -> &'a str {
        &self.whole[self.from..self.to]
    }

    pub fn is_empty(&self) -> bool {
        self.from == self.to
    }

    /// What stands in front of a byte of the part, and what stands from there on.
    pub fn split_at(self, at: usize) -> (Part<'a>, Part<'a>) {
        let middle = self.from + at;
        (Part { to: middle, ..self }, Part { from: middle, ..self })
    }

    /// The same without the space around it.
    pub fn trim(self) -> Part<'a> {
        let text = self.text();
        let from = self.from + (text.len() - text.trim_start().len());
        Part { from, to: from + text.trim().len(), ..self }
    }

    /// What stands in front of a sign and what stands behind it, if it is there.
    pub fn split_once(self, sign: char) -> Option<(Part<'a>, Part<'a>)> {
        let at = self.text().find(sign)?;
        Some((self.split_at(at).0, self.split_at(at + sign.len_utf8()).1))
    }

    /// What stands between the signs, each without the space around it.
    pub fn split(self, sign: char) -> Vec<Part<'a>> {
        let mut all = Vec::new();
        let mut rest = self;
        while let Some((front, behind)) = rest.split_once(sign) {
            all.push(front.trim());
            rest = behind;
        }
        all.push(rest.trim());
        all
    }

    /// The first word, up to a space, and the rest.
    pub fn word(self) -> (Part<'a>, Part<'a>) {
        let part = self.trim();
        let (word, rest) = part.split_at(part.text().find(char::is_whitespace).unwrap_or(part.text().len()));
        (word, rest.trim())
    }

    /// Line and column from 1.
    pub fn place(&self) -> (usize, usize) {
        let front = &self.whole[..self.from];
        let line = front.rsplit('\n').next().unwrap_or("");
        (front.matches('\n').count() + 1, line.chars().count() + 1)
    }

    /// What is wrong here.
    pub fn wrong(&self, message: impl Into<String>) -> Wrong {
        let (line, column) = self.place();
        Wrong { line, column, message: message.into() }
    }
}
