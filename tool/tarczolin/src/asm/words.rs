//! What a word of the text form means by itself: a number, a register by number, a location by number.
use crate::program::{LOCATIONS, REGISTERS};

/// The words that begin a statement, or stand inside one; no name may be one of them.
pub const KEYWORDS: [&str; 20] = [
    "thread",
    "alike",
    "const",
    "init",
    "store",
    "load",
    "fetch_add",
    "cas",
    "if",
    "goto",
    "assert",
    "fail",
    "skip",
    "fence",
    "exists",
    "forbid",
    "forall",
    "expect",
    "repeat",
    "def",
];

/// A letter and digits: the number behind the letter.
fn lettered(word: &str, letter: char) -> Option<&str> {
    word.strip_prefix(letter).filter(|rest| !rest.is_empty() && rest.bytes().all(|c| c.is_ascii_digit()))
}

/// A register by number, or what is wrong with the number; none for any other word.
pub fn register(word: &str) -> Option<Result<u8, String>> {
    let number = lettered(word, 'r')?.parse().ok().filter(|r| *r < REGISTERS);
    Some(number.ok_or_else(|| format!("there is no register {word}; registers are r0 to r3")))
}

/// A location by number, or what is wrong with the number; none for any other word.
pub fn location(word: &str) -> Option<Result<u8, String>> {
    let number = lettered(word, 'x')?.parse().ok().filter(|l| *l < LOCATIONS);
    Some(number.ok_or_else(|| format!("there is no location {word}; locations are x0 to x7, or names")))
}

/// A thread by number, as `1` or as `T1`.
pub fn thread(word: &str) -> Option<u8> {
    lettered(word, 'T').unwrap_or(word).parse().ok()
}

/// Is it what the thread of this number is called where it has no name?
pub fn is_default(word: &str, number: usize) -> bool {
    lettered(word, 'T') == Some(&number.to_string())
}

/// Is it a name: letters, digits and lines below, and no letter with digits that means something else?
pub fn is_name(word: &str) -> bool {
    let begins = word.starts_with(|c: char| c.is_ascii_alphabetic() || c == '_');
    begins
        && !word.contains('-')
        && !KEYWORDS.contains(&word)
        && !['r', 'x', 'T'].iter().any(|letter| lettered(word, *letter).is_some())
}

/// A number of 32 bits, or what is wrong with it; none for a word that is no number. -1 is ffffffff.
pub fn constant(word: &str) -> Option<Result<u32, String>> {
    let (negative, digits) = match word.strip_prefix('-') {
        Some(digits) => (true, digits),
        None => (false, word),
    };
    if !digits.starts_with(|c: char| c.is_ascii_digit()) {
        return None;
    }
    let value = match digits.strip_prefix("0x") {
        // from_str_radix would take a sign as well
        Some(digits) if digits.starts_with(['-', '+']) => None,
        Some(digits) => i64::from_str_radix(digits, 16).ok(),
        None => digits.parse().ok(),
    };
    let value = value.map(|value| if negative { -value } else { value });
    let fits = value.filter(|value| (-(1 << 31)..1 << 32).contains(value));
    Some(fits.map(|value| value as u32).ok_or_else(|| format!("{word} is no number of 32 bits")))
}
