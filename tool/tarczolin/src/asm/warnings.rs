//! What is allowed and looks like a slip.
use super::statement::{Statement, Word};
use super::wrong::Wrong;
use crate::near::one_off;
use std::collections::BTreeMap;

/// How often a location is read and written, and its first use.
struct Use<'a> {
    reads: usize,
    writes: usize,
    first: (&'a Statement, &'a Word),
}

/// Does one of these look like the other mistyped? Short names, as `x` and `y`, are meant to differ, and so are `slot0` and `slot1`.
fn look_alike(a: &str, b: &str) -> bool {
    let letters = |word: &str| word.chars().filter(|c| !c.is_ascii_digit()).collect::<String>();
    a.len().min(b.len()) > 2 && one_off(a, b) && letters(a) != letters(b)
}

fn uses(statements: &[Statement]) -> BTreeMap<&str, Use<'_>> {
    let mut all: BTreeMap<&str, Use> = BTreeMap::new();
    for statement in statements {
        let Some(word) = statement.kind.location() else { continue };
        let (reads, writes) = statement.kind.accesses();
        let one = all.entry(&word.text).or_insert(Use { reads: 0, writes: 0, first: (statement, word) });
        one.reads += reads as usize;
        one.writes += writes as usize;
    }
    all
}

/// Locations that are read and never written, or written once by a name one letter off another.
pub fn of_locations(statements: &[Statement]) -> Vec<Wrong> {
    let all = uses(statements);
    let mut warnings = Vec::new();
    for (name, Use { reads, writes, first: (statement, word) }) in &all {
        let like = all.keys().find(|other| look_alike(name, other));
        let message = match (writes, like) {
            (0, Some(other)) => format!("{name} is read and never written; is it {other}?"),
            (0, None) => format!("{name} is read and never written: it stays 0"),
            // one that is never written has a warning of its own
            (1, Some(other)) if all[other].writes > 0 && (*reads == 0 || all[other].writes + all[other].reads > 1) => {
                format!("{name} is written only here, and there is {other}; is it the same?")
            }
            _ => continue,
        };
        warnings.push(Wrong { line: statement.line, column: word.column, message });
    }
    warnings.sort();
    warnings
}
