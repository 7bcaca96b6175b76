//! The parts of a litmus test: its name, its initial values, its code, its condition.
use super::part::Part;
use crate::asm::Wrong;

/// What may stand behind the code.
const BEHIND: [&str; 5] = ["locations", "filter", "exists", "~exists", "forall"];

pub struct Parts<'a> {
    pub name: Part<'a>,
    /// What stands in the braces.
    pub initial: Part<'a>,
    pub code: Part<'a>,
    pub quantifier: Quantifier,
    pub condition: Part<'a>,
}

/// What a test says of its condition: that some execution ends so, that none does, that all do.
#[derive(Clone, Copy, Debug, PartialEq, Eq)]
pub enum Quantifier {
    Exists,
    Never,
    Forall,
}

/// The text with spaces in place of remarks, `(* .. *)`, one inside another too, so that all else keeps its place.
pub fn without_remarks(text: &str) -> Result<String, Wrong> {
    let (mut bare, mut open) = (String::new(), Vec::new());
    let mut rest = text.char_indices().peekable();
    while let Some((at, c)) = rest.next() {
        let next = rest.peek().map(|(_, next)| *next);
        let sign = matches!((c, next), ('(', Some('*'))) || (matches!((c, next), ('*', Some(')'))) && !open.is_empty());
        if sign {
            rest.next();
            match c {
                '(' => open.push(at),
                _ => drop(open.pop()),
            }
            bare += "  ";
        } else {
            bare.push(if open.is_empty() || c == '\n' { c } else { ' ' });
        }
    }
    match open.first() {
        Some(at) => Err(Part::whole(text).split_at(*at).1.wrong("this remark is not closed: *) is missing")),
        None => Ok(bare),
    }
}

/// The parts of a text without remarks.
pub fn parts(text: &str) -> Result<Parts<'_>, Wrong> {
    let whole = Part::whole(text).trim();
    let (first, rest) = whole.split_once('\n').unwrap_or(whole.split_at(whole.text().len()));
    let (architecture, name) = first.word();
    if !["X86", "X86_64"].contains(&architecture.text()) || name.is_empty() {
        return Err(first.wrong("the first line of a litmus test names X86 and the test"));
    }
    if name.text().contains(char::is_whitespace) {
        return Err(name.wrong("the name of a test is one word"));
    }
    let (_, rest) = rest.split_at(opening(rest).ok_or_else(|| first.wrong("the initial values stand in braces"))?);
    let (_, inner) = rest.split_at(1);
    let (initial, rest) = inner.split_once('}').ok_or_else(|| rest.wrong("the brace is not closed: } is missing"))?;
    let (code, behind) = rest.split_at(end_of_code(rest));
    let (quantifier, condition) = asked(behind.trim())?;
    Ok(Parts { name, initial, code, quantifier, condition })
}

/// Where the initial values begin. In front of them stand lines of the tool that made the test, a quoted one among them.
fn opening(rest: Part) -> Option<usize> {
    let mut at = 0;
    for line in rest.text().split_inclusive('\n') {
        if let Some(brace) = line.find('{').filter(|_| !line.trim_start().starts_with('"')) {
            return Some(at + brace);
        }
        at += line.len();
    }
    None
}

/// Where the code ends: in front of the line that begins with what may stand behind it.
fn end_of_code(rest: Part) -> usize {
    let mut at = 0;
    for line in rest.text().split_inclusive('\n') {
        let word = line.trim_start().split(|c: char| !c.is_ascii_alphanumeric() && c != '~' && c != '_').next();
        if word.is_some_and(|word| BEHIND.contains(&word)) {
            return at;
        }
        at += line.len();
    }
    at
}

/// What is said of the condition, and the condition.
fn asked(behind: Part) -> Result<(Quantifier, Part), Wrong> {
    let behind = without_locations(behind)?;
    let found = [("exists", Quantifier::Exists), ("~exists", Quantifier::Never), ("forall", Quantifier::Forall)].into_iter();
    let found = found.filter_map(|(word, quantifier)| Some((quantifier, behind_word(behind, word)?))).next();
    match found {
        Some((_, condition)) if condition.is_empty() => Err(condition.wrong("the condition is missing behind this word")),
        Some(found) => Ok(found),
        None if behind.is_empty() => Err(behind.wrong("a condition stands behind the code, behind exists, ~exists or forall")),
        None => {
            let (word, _) = behind.word();
            Err(word.wrong(format!("the condition begins with exists, ~exists or forall, not {}", word.text())))
        }
    }
}

/// What stands behind a word, if the part begins with it.
fn behind_word<'a>(part: Part<'a>, word: &str) -> Option<Part<'a>> {
    let rest = part.text().strip_prefix(word)?;
    (!rest.starts_with(|c: char| c.is_ascii_alphanumeric() || c == '_')).then(|| part.split_at(word.len()).1.trim())
}

/// The part behind lists of locations: which of them are printed does not matter.
fn without_locations(mut behind: Part) -> Result<Part, Wrong> {
    while let Some(locations) = behind_word(behind, "locations") {
        let (_, rest) = locations.split_once(']').ok_or_else(|| locations.wrong("locations stand in brackets: ] is missing"))?;
        behind = rest.trim();
    }
    Ok(behind)
}
