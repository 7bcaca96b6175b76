//! What a mistyped command or option may have been meant to be.
use crate::near::hint;

/// To stand behind a message: the same with other dashes, one letter off, or cut short; nothing where none is near.
pub fn meant<'a>(word: &str, known: impl IntoIterator<Item = &'a str>) -> String {
    fn bare(word: &str) -> &str {
        word.trim_start_matches('-')
    }
    let known: Vec<&str> = known.into_iter().collect();
    let same = |other: &&&str| bare(other) == bare(word);
    let longer = |other: &&&str| bare(word).len() > 2 && bare(other).starts_with(bare(word));
    match known.iter().find(same).or_else(|| known.iter().find(longer)) {
        Some(other) => format!("; is it {other}?"),
        None => hint(word, known),
    }
}
