//! Programs that write themselves: `repeat 2 { .. }`, `def push(node) { .. }` and its uses, `thread worker * 3 alike`, and arrays of locations,
//! `const next[0..3]`. What is made are lines as if they had been written out; each keeps its place in the text and the lines that made it.
use super::arrays::Arrays;
use super::blocks::{blocks, Block};
use super::line::{Line, Piece};
use super::said::begins;
use super::tokens::tokens;
use super::words::{constant, KEYWORDS};
use super::wrong::{used, Wrong};
use crate::near::hint;
use std::collections::BTreeMap;

/// No more lines are made: no program has so many instructions.
const MOST: usize = 4096;
/// So many times at most, which no program has accesses for.
const TIMES: u32 = 24;

/// A definition: its line, its parameters, its body, and whether anything uses it.
struct Definition<'a> {
    line: usize,
    parameters: Vec<String>,
    body: &'a [Block],
    used: bool,
}

/// What stands for a word inside a body: parameters, and the labels that each expansion has for itself.
#[derive(Clone, Default)]
struct Scope {
    parameters: BTreeMap<String, String>,
    labels: BTreeMap<String, String>,
    uses: Vec<usize>,
    calls: Vec<String>,
}

struct Expansion<'a> {
    definitions: BTreeMap<String, Definition<'a>>,
    constants: BTreeMap<String, u32>,
    arrays: Arrays,
    made: Vec<Line>,
    wrong: Vec<Wrong>,
    /// So many expansions have labels of their own so far.
    labelled: usize,
}

/// What a text becomes: its lines, what is wrong with it, and what looks like a slip.
pub struct Expanded {
    pub lines: Vec<Line>,
    pub wrong: Vec<Wrong>,
    pub warnings: Vec<Wrong>,
}

/// The lines of a text with all that it writes by itself.
pub fn expand(text: &[u8], given: &[String]) -> Expanded {
    let (lines, mut wrong) = read(text);
    let constants = constants(&lines);
    let (arrays, lines) = Arrays::of(lines, &constants, given, &mut wrong);
    let (blocks, more) = blocks(lines);
    wrong.extend(more);
    let mut expansion = Expansion { definitions: BTreeMap::new(), constants, arrays, made: Vec::new(), wrong, labelled: 0 };
    expansion.define(&blocks);
    expansion.all(&blocks, &Scope::default());
    let warnings = expansion.definitions.iter().filter(|(_, one)| !one.used);
    let warnings =
        warnings.map(|(name, one)| Wrong { line: one.line, column: 1, message: format!("nothing uses {name}") }).collect();
    let Expansion { made, mut wrong, constants, .. } = expansion;
    let lines = super::copies::threads(made, &constants, &mut wrong);
    Expanded { lines, wrong, warnings }
}

/// The lines of a text in words and signs; what is expected of the program is left out, since that is read once the program is known.
fn read(text: &[u8]) -> (Vec<Line>, Vec<Wrong>) {
    let (mut lines, mut wrong) = (Vec::new(), Vec::new());
    for (number, line) in (1..).zip(text.split(|&c| c == b'\n')) {
        let read = std::str::from_utf8(line).map_err(|error| no_text(line, number, error));
        match read.and_then(|line| if begins(line.trim_start()) { Ok(Vec::new()) } else { tokens(line, number) }) {
            Ok(tokens) if tokens.is_empty() => {}
            Ok(tokens) => {
                let pieces = tokens.iter().map(|token| Piece { text: token.text.to_string(), column: token.column }).collect();
                lines.push(Line { number, pieces, uses: Vec::new() });
            }
            Err(error) => wrong.push(error),
        }
    }
    (lines, wrong)
}

fn no_text(line: &[u8], number: usize, error: std::str::Utf8Error) -> Wrong {
    let column = String::from_utf8_lossy(&line[..error.valid_up_to()]).chars().count() + 1;
    Wrong { line: number, column, message: "the text is not UTF-8 here".to_string() }
}

/// The constants that lines give a number; what is wrong with them is told where they are read.
fn constants(lines: &[Line]) -> BTreeMap<String, u32> {
    let mut all: BTreeMap<String, u32> = BTreeMap::new();
    for line in lines {
        let texts: Vec<&str> = line.pieces.iter().map(|piece| piece.text.as_str()).collect();
        let ["const", name, "=", value] = texts[..] else { continue };
        let value = constant(value).and_then(Result::ok).or_else(|| all.get(value).copied());
        if let Some(value) = value.filter(|_| !all.contains_key(name)) {
            all.insert(name.to_string(), value);
        }
    }
    all
}

/// A label's name inside an expansion, as nobody can write it.
fn own_label(name: &str, number: usize) -> String {
    format!("{name}#{number}")
}

/// The name of a label that a line begins with.
fn label(pieces: &[Piece]) -> Option<&str> {
    pieces.get(1).filter(|colon| colon.text == ":").map(|_| pieces[0].text.as_str())
}

impl<'a> Expansion<'a> {
    fn error(&mut self, line: &Line, at: usize, message: String) {
        let end = line.pieces.last().map_or(1, |piece| piece.column + piece.text.chars().count());
        let column = line.pieces.get(at).map_or(end, |piece| piece.column);
        self.wrong.push(Wrong { line: line.number, column, message: message + &used(&line.uses) });
    }

    /// Takes in the definitions, which stand outside of all other blocks.
    fn define(&mut self, blocks: &'a [Block]) {
        for block in blocks {
            let Block::Def { head, body } = block else { continue };
            match parameters(head) {
                Err((at, message)) => self.error(head, at, message),
                Ok((name, _)) if KEYWORDS.contains(&name.as_str()) => self.error(head, 1, format!("{name} cannot be a name")),
                Ok((name, _)) if self.definitions.contains_key(&name) => {
                    let line = self.definitions[&name].line;
                    self.error(head, 1, format!("{name} is defined already, in line {line}"));
                }
                Ok((name, parameters)) => {
                    self.definitions.insert(name, Definition { line: head.number, parameters, body, used: false });
                }
            }
        }
    }

    fn all(&mut self, blocks: &'a [Block], scope: &Scope) {
        for block in blocks {
            if self.made.len() > MOST {
                return;
            }
            match block {
                Block::Line(line) => self.line(line, scope),
                Block::Def { head, .. } if !scope.uses.is_empty() => {
                    self.error(head, 0, "a definition stands outside of all braces".to_string());
                }
                Block::Def { .. } => {}
                Block::Repeat { head, body } => self.repeat(head, body, scope),
            }
        }
        if self.made.len() > MOST && !self.wrong.iter().any(|one| one.message.contains("more than")) {
            let line = self.made[MOST].clone();
            self.error(
                &line,
                0,
                format!("this is repeated until there are more than {MOST} lines; a thread has at most 16 instructions"),
            );
        }
    }

    /// A body once more: its labels are its own.
    fn body(&mut self, body: &'a [Block], scope: &Scope) {
        let mut scope = scope.clone();
        self.labelled += 1;
        for block in body {
            let Block::Line(line) = block else { continue };
            if let Some(name) = label(&line.pieces) {
                scope.labels.insert(name.to_string(), own_label(name, self.labelled));
            }
        }
        self.all(body, &scope);
    }

    fn repeat(&mut self, head: &Line, body: &'a [Block], scope: &Scope) {
        let head = self.substituted(head, scope);
        let number = match &head.pieces[..] {
            [_, count, _] => self.number(&count.text),
            _ => None,
        };
        let Some(times) = number.filter(|times| (1..=TIMES).contains(times)) else {
            return self.error(&head, 1, format!("repeat takes a number from 1 to {TIMES} and a brace: repeat 2 {{"));
        };
        let mut inner = scope.clone();
        inner.uses.push(head.number);
        (0..times).for_each(|_| self.body(body, &inner));
    }

    fn number(&self, word: &str) -> Option<u32> {
        constant(word).and_then(Result::ok).or_else(|| self.constants.get(word).copied())
    }

    /// A line with its parameters, its own labels and its places of arrays.
    fn substituted(&mut self, line: &Line, scope: &Scope) -> Line {
        let of = |(at, piece): (usize, &Piece)| {
            let jumps = at > 0 && line.pieces[at - 1].text == "goto";
            let begins = at == 0 && label(&line.pieces).is_some();
            let own = if jumps || begins { scope.labels.get(&piece.text) } else { None };
            let text = own.or_else(|| scope.parameters.get(&piece.text)).unwrap_or(&piece.text).clone();
            Piece { text, ..piece.clone() }
        };
        let pieces = line.pieces.iter().enumerate().map(of).collect();
        let line = Line { number: line.number, pieces, uses: scope.uses.clone() };
        match self.arrays.joined(line, &self.constants) {
            Ok(line) => line,
            Err((line, wrong)) => {
                self.wrong.push(Wrong { message: wrong.message + &used(&line.uses), ..wrong });
                line
            }
        }
    }

    fn line(&mut self, line: &Line, scope: &Scope) {
        let mut line = self.substituted(line, scope);
        let front = if label(&line.pieces).is_some() { 2 } else { 0 };
        if line.pieces.get(front + 1).is_none_or(|sign| sign.text != "(") {
            return self.made.push(line);
        }
        let call = Line { pieces: line.pieces.split_off(front), ..line.clone() };
        if front > 0 {
            self.made.push(line);
        }
        self.call(&call, scope);
    }

    /// The body of a definition in place of its use.
    fn call(&mut self, call: &Line, scope: &Scope) {
        let name = call.pieces[0].text.clone();
        let values = match listed(&call.pieces[1..]) {
            Ok(values) => values,
            Err((at, message)) => return self.error(call, at + 1, message),
        };
        let known = self.definitions.get_mut(&name).map(|definition| {
            definition.used = true;
            (definition.line, definition.parameters.clone(), definition.body)
        });
        let Some((line, parameters, body)) = known else {
            let hint = hint(&name, self.definitions.keys().map(String::as_str));
            return self.error(call, 0, format!("nothing defines {name}{hint}"));
        };
        if scope.calls.contains(&name) {
            return self.error(call, 0, format!("{name}, defined in line {line}, uses itself: programs have no loops"));
        }
        if parameters.len() != values.len() {
            let message = format!("{name} takes {} words, by line {line}, not {}", parameters.len(), values.len());
            return self.error(call, 1, message);
        }
        let mut inner = Scope { parameters: parameters.into_iter().zip(values).collect(), ..Scope::default() };
        inner.uses = [scope.uses.clone(), vec![call.number]].concat();
        inner.calls = [scope.calls.clone(), vec![name]].concat();
        self.body(body, &inner);
    }
}

/// The words in brackets, with commas between them; or what is wrong at which piece.
fn listed(pieces: &[Piece]) -> Result<Vec<String>, (usize, String)> {
    let mut values = Vec::new();
    for (at, piece) in pieces.iter().enumerate().skip(1) {
        let word = piece.text.starts_with(|c: char| c.is_ascii_alphanumeric() || c == '_' || c == '-');
        match (at % 2, piece.text.as_str()) {
            (_, ")") if (at % 2 == 0 && !values.is_empty()) || at == 1 => {
                return match pieces.get(at + 1) {
                    Some(more) => Err((at + 1, format!("the statement has ended; {} is too much", more.text))),
                    None => Ok(values),
                };
            }
            (1, _) if word => values.push(piece.text.clone()),
            (0, ",") => {}
            (1, other) => return Err((at, format!("a word is expected here, not {other}"))),
            (_, other) => return Err((at, format!(", or ) is expected here, not {other}"))),
        }
    }
    Err((pieces.len(), ") is missing".to_string()))
}

/// The name of a definition and its parameters: `def push(node, value) {`.
fn parameters(head: &Line) -> Result<(String, Vec<String>), (usize, String)> {
    let pieces = &head.pieces;
    let name = pieces.get(1).map(|piece| piece.text.clone()).unwrap_or_default();
    if !name.starts_with(|c: char| c.is_ascii_alphabetic() || c == '_') || pieces.len() < 4 {
        return Err((1, "a definition is written as def push(node) {".to_string()));
    }
    if pieces[2].text != "(" {
        return Err((2, format!("( is expected here, not {}", pieces[2].text)));
    }
    let listed = listed(&pieces[2..pieces.len() - 1]).map_err(|(at, message)| (at + 2, message))?;
    match (0..listed.len()).find(|k| listed[..*k].contains(&listed[*k])) {
        Some(k) => Err((3 + 2 * k, format!("{} stands here twice", listed[k]))),
        None => Ok((name, listed)),
    }
}
