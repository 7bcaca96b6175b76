//! The text form of a program: a statement a line, translated to the lines of the program file.
mod arrays;
mod blocks;
mod condition;
mod copies;
mod expand;
mod fence;
mod limits;
mod line;
mod marked;
mod parse;
mod places;
mod remarks;
mod resolve;
mod said;
mod statement;
mod symbols;
mod threads;
mod tokens;
mod translate;
mod warnings;
mod words;
mod write;
mod wrong;

use crate::ask;
use crate::error::Mark;
use crate::model::Model;
use crate::program::{self, Frame, Names, FILE_LIMIT};
use crate::refusal;
use statement::Kind;
use std::collections::BTreeMap;
use symbols::Symbols;
use threads::Threads;
use wrong::Wrongs;

pub use marked::named;
pub use places::{fenced, places, Group, Place};
pub use remarks::Remarks;
pub use said::{said, Said};
pub use words::constant;
pub use write::text;
pub use wrong::Wrong;

/// A program file made of a text, the text's names and remark lines, and what looks like a slip in it.
#[derive(Clone, Debug, PartialEq, Eq)]
pub struct Assembled {
    pub file: Vec<u8>,
    pub names: Names,
    pub remarks: Remarks,
    pub warnings: Vec<Mark>,
    /// So many fences are left out.
    pub left_out: usize,
    /// What is expected of it.
    pub said: Vec<Said>,
    /// The lines that repeat or use a definition, and how many accesses each had made.
    pub made: Vec<(usize, usize)>,
}

/// The program file of a text for both memory models, or all that is wrong with it.
pub fn assemble(text: &[u8]) -> Result<Assembled, Vec<Mark>> {
    assemble_for(text, None)
}

/// The same for one memory model, or for both. The library itself says whether the program is accepted.
pub fn assemble_for(text: &[u8], model: Option<Model>) -> Result<Assembled, Vec<Mark>> {
    let text = unmarked(text);
    let given = Remarks::of_text(text, &[]).names();
    let (statements, unread, unused) = parse::statements(text, &places_of_arrays(&given));
    let mut wrong = Wrongs::of_lines(text, unread);
    let symbols = Symbols::of(&statements, given, &mut wrong);
    let threads = Threads::of(&statements, &symbols, model, &mut wrong);
    let marks = |all: Vec<Wrong>| all.into_iter().map(|one| mark(text, one)).collect::<Vec<_>>();
    if !wrong.is_empty() {
        return Err(marks(wrong.sorted()));
    }
    let file = program::file(&threads.frames());
    if let Err(refused) = ask::check(within_limit(&file)) {
        let (line, column) = threads.place(refused.place);
        return Err(marks(vec![Wrong { line, column, message: refusal::sentence(&file, refused) }]));
    }
    let mut warnings = warnings::of_locations(&statements);
    warnings.extend(threads.unused_labels());
    warnings.extend(slips(text, true));
    warnings.extend(unused);
    warnings.sort();
    warnings.dedup();
    let made = made(&statements);
    let fences = statements.iter().filter(|statement| model == Some(Model::Sc) && statement.kind == Kind::Fence);
    let left_out: Vec<usize> = fences.map(|statement| statement.line).collect();
    let said = said::said(text, true);
    let (names, warnings) = (threads.names(&symbols), marks(warnings));
    let expected = said.iter().map(|one| (one.line, said::remark_line(one, |word| names.constants.get(word).copied()))).collect();
    let remarks = Remarks::of_text_without(text, &threads.lines(), &left_out, expected);
    Ok(Assembled { file, names, remarks, warnings, left_out: left_out.len(), said, made })
}

/// The places of arrays that name lines know.
fn places_of_arrays(names: &Names) -> Vec<String> {
    names.locations.iter().flatten().filter(|name| name.contains('[')).cloned().collect()
}

/// How many accesses the statements have that each line had made.
fn made(statements: &[statement::Statement]) -> Vec<(usize, usize)> {
    let mut all: BTreeMap<usize, usize> = BTreeMap::new();
    for statement in statements {
        let access = statement.kind == Kind::Fence || statement.kind.is_access();
        statement.uses.iter().for_each(|line| *all.entry(*line).or_default() += access as usize);
    }
    all.into_iter().collect()
}

/// Remarks of a text, or of a program file, that look like expectations and are none.
fn slips(text: &[u8], form: bool) -> Vec<Wrong> {
    let wrong = |(line, column, message)| Wrong { line, column, message };
    said::slips(text, form).into_iter().map(wrong).collect()
}

/// The same of a program file, for the eye.
pub fn slips_of_file(file: &[u8]) -> Vec<Mark> {
    slips(file, false).into_iter().map(|one| mark(file, one)).collect()
}

/// The program file of these frames with remark lines, in front of them a line for each name and each fence; where it would be too long,
/// the frames alone.
pub fn remarked(frames: &[Frame], names: &Names, remarks: &Remarks) -> Vec<u8> {
    let remarks = remarks.with(names).with_fences(names);
    let mut file = Vec::new();
    for at in 0..=frames.len() {
        remarks.before(at).for_each(|line| file.extend([line.as_bytes(), b"\n"].concat()));
        file.extend(program::file(frames.get(at..at + 1).unwrap_or(&[])));
    }
    if file.len() > FILE_LIMIT {
        return program::file(frames);
    }
    file
}

/// Does this content begin as the text form does? A program file has digits and remarks only.
pub fn is_text(bytes: &[u8]) -> bool {
    let lines = unmarked(bytes).split(|&c| c == b'\n').map(<[u8]>::trim_ascii);
    let first = lines.into_iter().find(|line| !line.is_empty() && !line.starts_with(b"#"));
    let word = first.and_then(|line| line.split(|c| !c.is_ascii_alphanumeric() && *c != b'_').next());
    word.is_some_and(|word| words::KEYWORDS.iter().any(|keyword| keyword.as_bytes() == word))
}

/// A text without the byte order mark that some editors put in front.
fn unmarked(text: &[u8]) -> &[u8] {
    text.strip_prefix(b"\xef\xbb\xbf").unwrap_or(text)
}

/// A place in a text, with its line for the eye.
pub fn mark(text: &[u8], Wrong { line, column, message }: Wrong) -> Mark {
    let whole = text.split(|&c| c == b'\n').nth(line - 1).unwrap_or(&[]);
    let shown: String = String::from_utf8_lossy(whole).chars().map(|c| if c.is_control() { ' ' } else { c }).collect();
    Mark { line, column, shown: shown.trim_end().to_string(), message }
}

/// The lines of a file that lie within the limit of its length: where there are more, one of these passes another limit,
/// and that one has a line to point to.
fn within_limit(file: &[u8]) -> &[u8] {
    let end = file.len().min(FILE_LIMIT);
    let lines = file[..end].iter().rposition(|&c| c == b'\n').map_or(0, |k| k + 1);
    &file[..lines]
}
