//! From lines to expectations. A line that begins as one and cannot be read is an error with its place, never a remark.
use super::expectation::{Expectation, Kind};
use crate::asm::Said;
use crate::error::Mark;
use crate::model::Model;
use crate::near::hint;
use crate::outcome::{Condition, Misread};
use crate::program::Program;

/// All that is expected of a program, or all that is wrong with the lines that say it.
pub fn read(said: &[Said], program: &Program) -> Result<Vec<Expectation>, Vec<Mark>> {
    let (all, wrong): (Vec<_>, Vec<_>) = said.iter().map(|one| of(one, program)).partition(Result::is_ok);
    match wrong.is_empty() {
        true => Ok(all.into_iter().filter_map(Result::ok).collect()),
        false => Err(wrong.into_iter().filter_map(Result::err).collect()),
    }
}

/// What is wrong with those lines that are statements of a text: no command that makes a program of it passes over them.
pub fn wrong_statements(said: &[Said], program: &Program) -> Vec<Mark> {
    said.iter().filter(|one| one.statement).filter_map(|one| of(one, program).err()).collect()
}

/// A part of a line: its characters from one place on, from 0.
struct Piece<'a> {
    at: usize,
    text: &'a str,
}

impl<'a> Piece<'a> {
    /// The same without space around it.
    fn trim(self) -> Piece<'a> {
        let front = self.text.chars().count() - self.text.trim_start().chars().count();
        Piece { at: self.at + front, text: self.text.trim() }
    }

    /// What stands in front of a byte of it, and behind.
    fn split_at(self, byte: usize) -> (Piece<'a>, Piece<'a>) {
        let (front, behind) = self.text.split_at(byte);
        let at = self.at + front.chars().count();
        (Piece { at: self.at, text: front }.trim(), Piece { at, text: behind }.trim())
    }

    fn wrong(&self, message: String) -> Misread {
        Misread { at: self.at, message }
    }
}

fn of(said: &Said, program: &Program) -> Result<Expectation, Mark> {
    parsed(said, program).map_err(|Misread { at, message }| {
        let hint = if said.statement { "" } else { "; a remark that expects nothing begins with another word" };
        let Said { line, column, shown, .. } = said;
        Mark { line: *line, column: column + at, shown: shown.clone(), message: message + hint }
    })
}

fn parsed(said: &Said, program: &Program) -> Result<Expectation, Misread> {
    let whole = Piece { at: 0, text: &said.text };
    let word = said.text.find(|c: char| !c.is_ascii_alphanumeric() && c != '_').unwrap_or(said.text.len());
    let (first, rest) = whole.split_at(word);
    let rest = match rest.text.strip_prefix(':') {
        Some(text) => Piece { at: rest.at + 1, text }.trim(),
        None => rest,
    };
    let (rest, model) = under(rest)?;
    let condition = || {
        let read = Condition::read(rest.text, program);
        read.map_err(|misread| Misread { at: rest.at + misread.at, ..misread })
    };
    let word = first.text.to_ascii_lowercase();
    let kind = match word.as_str() {
        "exists" => Kind::Exists(condition()?),
        "forbid" => Kind::Forbid(condition()?),
        "forall" => Kind::Forall(condition()?),
        _ => expected(&rest)?,
    };
    Ok(Expectation { kind, model, text: format!("{word} {}", rest.text), line: said.line })
}

/// What stands in front of `under`, and the model behind it.
fn under(rest: Piece) -> Result<(Piece, Option<Model>), Misread> {
    let at = rest.text.rfind("under").filter(|at| is_word(rest.text, *at, "under"));
    let Some(at) = at.filter(|at| !rest.text[at + "under".len()..].trim_start().starts_with(['=', '!', ')', '&', '|'])) else {
        return Ok((rest, None));
    };
    let (front, behind) = rest.split_at(at);
    let (_, word) = behind.split_at("under".len());
    match word.text {
        "sc" => Ok((front, Some(Model::Sc))),
        "tso" => Ok((front, Some(Model::Tso))),
        "" => Err(word.wrong("sc or tso is missing behind under".to_string())),
        other => Err(word.wrong(format!("sc or tso is expected behind under, not {other}"))),
    }
}

/// Does a word stand at this byte by itself?
fn is_word(text: &str, at: usize, word: &str) -> bool {
    let joins = |c: char| c.is_ascii_alphanumeric() || "_.-".contains(c);
    !text[..at].ends_with(joins) && !text[at + word.len()..].starts_with(joins)
}

fn expected(rest: &Piece) -> Result<Kind, Misread> {
    match rest.text {
        "violation" => Ok(Kind::Violation),
        "none" => Ok(Kind::NoViolation),
        "" => Err(rest.wrong("violation or none is missing behind expect".to_string())),
        other => {
            let hint = hint(other, ["violation", "none"]);
            Err(rest.wrong(format!("violation or none is expected behind expect, not {other}{hint}")))
        }
    }
}
