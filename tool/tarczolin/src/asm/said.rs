//! Lines that say what is expected of a program: `forbid x = 1 under tso` in the text form, `# forbid x = 1 under tso` in a program file,
//! where they are remarks, and in the text form too. Here they are found; what they say is read once the program is known.
use crate::near::one_off;

/// The words that such a line begins with.
pub const EXPECTING: [&str; 4] = ["exists", "forbid", "forall", "expect"];

/// A line that begins as an expectation does.
#[derive(Clone, Debug, PartialEq, Eq)]
pub struct Said {
    /// Line and column of its first word, from 1.
    pub line: usize,
    pub column: usize,
    /// What stands from its first word on.
    pub text: String,
    /// The whole line for the eye.
    pub shown: String,
    /// It is a statement of the text form, no remark.
    pub statement: bool,
}

/// The word that a text begins with.
fn first(text: &str) -> &str {
    text.split(|c: char| !c.is_ascii_alphanumeric() && c != '_').next().unwrap_or("")
}

/// Does a line of the text form begin as an expectation?
pub fn begins(text: &str) -> bool {
    EXPECTING.contains(&first(text))
}

/// Does a remark begin so, in capitals too?
fn remark_begins(text: &str) -> bool {
    EXPECTING.iter().any(|word| first(text).eq_ignore_ascii_case(word))
}

/// What stands behind the signs of a remark line, if it is one, and in front of that so many characters.
fn remark(line: &str) -> Option<(usize, &str)> {
    let inner = line.trim_start();
    let text = inner.strip_prefix('#')?.trim_start_matches(|c: char| c == '#' || c.is_whitespace());
    Some((line.chars().count() - text.chars().count(), text.trim_end()))
}

/// The lines of a program file or, where it is one, of a text that begin as expectations.
pub fn said(text: &[u8], form: bool) -> Vec<Said> {
    let lines = (1..).zip(text.split(|&c| c == b'\n').map(String::from_utf8_lossy));
    let of = |(line, whole): (usize, std::borrow::Cow<str>)| {
        let space = whole.chars().count() - whole.trim_start().chars().count();
        let statement = form && begins(whole.trim_start());
        // behind a statement stands a remark up to the end of the line
        let bare = || whole.trim().split('#').next().unwrap_or("").trim_end();
        let (at, text) = if statement { (space, bare()) } else { remark(&whole).filter(|(_, text)| remark_begins(text))? };
        let shown = whole.chars().map(|c| if c.is_control() { ' ' } else { c }).collect::<String>();
        Some(Said { line, column: at + 1, text: text.to_string(), shown: shown.trim_end().to_string(), statement })
    };
    lines.filter_map(of).collect()
}

/// Remarks that look like expectations and are none: by a word that is nearly one of theirs, or behind a statement. Each with its line, its
/// column, the line for the eye and what there is to say.
pub fn slips(text: &[u8], form: bool) -> Vec<(usize, usize, String)> {
    let lines = (1..).zip(text.split(|&c| c == b'\n').map(String::from_utf8_lossy));
    let of = |(line, whole): (usize, std::borrow::Cow<str>)| {
        if let Some((at, text)) = remark(&whole) {
            let word = first(text).to_ascii_lowercase();
            let meant = EXPECTING.iter().find(|known| one_off(&word, known))?;
            return Some((line, at + 1, format!("this remark expects nothing; is {word} meant to be {meant}?")));
        }
        let (front, behind) = whole.split_once('#').filter(|(front, _)| form && !begins(front.trim_start()))?;
        let column = front.chars().count() + 1;
        let message = "this remark stands behind a statement and expects nothing: an expectation has a line of its own";
        remark_begins(behind.trim_start()).then(|| (line, column, message.to_string()))
    };
    lines.filter_map(of).collect()
}

/// The remark line of an expectation in a program file, which has no constants: these are written as numbers.
pub fn remark_line(said: &Said, constant: impl Fn(&str) -> Option<u32>) -> String {
    let mut text = String::new();
    let mut word = String::new();
    for c in said.text.chars().chain(['\n']) {
        if c.is_ascii_alphanumeric() || "_.-".contains(c) {
            word.push(c);
            continue;
        }
        text += &constant(&word).map_or(std::mem::take(&mut word), |value| value.to_string());
        word.clear();
        text.push(c);
    }
    format!("# {}", text.trim_end())
}

#[cfg(test)]
mod tests {
    use super::*;

    #[test]
    fn lines_that_expect_something() {
        let text = b"# a remark\n  #  exists x = 1\nthread\n  forbid x = 2 # why\n#Expect none\n# expects\n";
        let all: Vec<(usize, usize, String, bool)> =
            said(text, true).into_iter().map(|one| (one.line, one.column, one.text, one.statement)).collect();
        let wanted = [(2, 6, "exists x = 1", false), (4, 3, "forbid x = 2", true), (5, 2, "Expect none", false)];
        assert_eq!(all, wanted.map(|(line, column, text, statement)| (line, column, text.to_string(), statement)));
        let of_file: Vec<usize> = said(text, false).iter().map(|one| one.line).collect();
        assert_eq!(of_file, [2, 5], "a program file has remarks only");
    }

    #[test]
    fn what_looks_like_one() {
        let places =
            |text: &[u8], form| slips(text, form).into_iter().map(|(line, column, _)| (line, column)).collect::<Vec<_>>();
        assert_eq!(places(b"# forbids x = 1\n# exist x\n# nothing\n", false), [(1, 3), (2, 3)]);
        assert_eq!(places(b"store x 1 # forbid x = 1\nforbid x = 2 # forall\nstore x 1 # expected\n", true), [(1, 11)]);
    }

    #[test]
    fn constants_become_numbers() {
        let said = &said(b"forbid p.item=ITEM & !(x = ITEM) & ITEMS = 1", true)[0];
        let line = remark_line(said, |word| (word == "ITEM").then_some(7));
        assert_eq!(line, "# forbid p.item=7 & !(x = 7) & ITEMS = 1");
    }
}
