//! Arrays of locations: `const next[0..3]` has the locations next[0] to next[3], each used by a constant index, `next[K]`.
use super::line::{Line, Piece};
use super::words::{constant, KEYWORDS};
use super::wrong::Wrong;
use crate::near::hint;
use std::collections::BTreeMap;

/// The first and the last index of each array, and the places that name lines know by themselves.
#[derive(Default)]
pub struct Arrays {
    all: BTreeMap<String, (u32, u32)>,
    given: Vec<String>,
}

fn value(word: &str, constants: &BTreeMap<String, u32>) -> Option<u32> {
    constant(word).and_then(Result::ok).or_else(|| constants.get(word).copied())
}

fn wrong(line: &Line, piece: &Piece, message: String) -> Wrong {
    Wrong { line: line.number, column: piece.column, message }
}

impl Arrays {
    /// Takes the arrays out of these lines.
    pub fn of(
        lines: Vec<Line>,
        constants: &BTreeMap<String, u32>,
        given: &[String],
        all: &mut Vec<Wrong>,
    ) -> (Arrays, Vec<Line>) {
        let mut arrays = Arrays { all: BTreeMap::new(), given: given.to_vec() };
        let (declared, rest): (Vec<Line>, Vec<Line>) = lines
            .into_iter()
            .partition(|line| line.pieces[0].text == "const" && line.pieces.get(2).is_some_and(|sign| sign.text == "["));
        for line in &declared {
            all.extend(arrays.declare(line, constants).err());
        }
        (arrays, rest)
    }

    fn declare(&mut self, line: &Line, constants: &BTreeMap<String, u32>) -> Result<(), Wrong> {
        let [_, name, _, first, dots, last, close] = &line.pieces[..] else {
            return Err(wrong(line, &line.pieces[1], "an array is written as const next[0..3]".to_string()));
        };
        if dots.text != ".." || close.text != "]" {
            return Err(wrong(line, dots, "an array is written as const next[0..3]".to_string()));
        }
        let letters = name.text.starts_with(|c: char| c.is_ascii_alphabetic() || c == '_') && !name.text.contains('-');
        if !letters || KEYWORDS.contains(&name.text.as_str()) || constants.contains_key(&name.text) {
            return Err(wrong(line, name, format!("{} cannot be the name of an array", name.text)));
        }
        if self.all.contains_key(&name.text) {
            return Err(wrong(line, name, format!("{} is an array already", name.text)));
        }
        let bound = |piece: &Piece| {
            value(&piece.text, constants)
                .ok_or_else(|| wrong(line, piece, format!("a number is expected here, not {}", piece.text)))
        };
        let (from, to) = (bound(first)?, bound(last)?);
        if to < from || to - from >= 8 {
            return Err(wrong(
                line,
                first,
                format!("{} to {} are no places of an array: at least one, at most 8", first.text, last.text),
            ));
        }
        self.all.insert(name.text.clone(), (from, to));
        Ok(())
    }

    /// A line in which each place of an array is one word, its index a number; or the line without and what is wrong.
    pub fn joined(&self, line: Line, constants: &BTreeMap<String, u32>) -> Result<Line, (Line, Wrong)> {
        let mut pieces: Vec<Piece> = Vec::new();
        let mut rest = &line.pieces[..];
        let mut error = None;
        while let Some((first, behind)) = rest.split_first() {
            rest = behind;
            let mut piece = first.clone();
            if behind.first().is_some_and(|sign| sign.text == "[") {
                let place = self.place(&line, first, behind, constants);
                let closes = behind.iter().position(|sign| sign.text == "]").map_or(behind.len(), |at| at + 1);
                rest = &behind[closes..];
                match place {
                    Ok(text) => piece.text = text,
                    Err(one) => error = error.or(Some(one)),
                }
            }
            pieces.push(piece);
        }
        let line = Line { pieces, ..line };
        error.map_or(Ok(line.clone()), |error| Err((line, error)))
    }

    /// The location of a name and an index in brackets.
    fn place(&self, line: &Line, name: &Piece, behind: &[Piece], constants: &BTreeMap<String, u32>) -> Result<String, Wrong> {
        let [_, index, close, ..] = behind else {
            return Err(wrong(line, name, format!("an index and ] are expected behind {}[", name.text)));
        };
        if close.text != "]" {
            return Err(wrong(line, close, format!("] is expected here, not {}", close.text)));
        }
        let Some(number) = value(&index.text, constants) else {
            let message =
                format!("an index is a number or a constant, not {}: which location is meant must stand in the text", index.text);
            return Err(wrong(line, index, message));
        };
        let place = format!("{}[{number}]", name.text);
        match self.all.get(&name.text) {
            Some((from, to)) if !(*from..=*to).contains(&number) => {
                Err(wrong(line, index, format!("{} has the places {from} to {to}, not {number}", name.text)))
            }
            Some(_) => Ok(place),
            None if self.given.contains(&place) => Ok(place),
            None => {
                let hint = hint(&name.text, self.all.keys().map(String::as_str));
                Err(wrong(line, name, format!("there is no array {}{hint}", name.text)))
            }
        }
    }
}
