//! Words that are nearly the same: one letter more, one less, another one, or two neighbours exchanged.

/// Are these one letter apart?
pub fn one_off(a: &str, b: &str) -> bool {
    let (a, b): (Vec<char>, Vec<char>) = (a.chars().collect(), b.chars().collect());
    let (short, long) = if a.len() <= b.len() { (&a, &b) } else { (&b, &a) };
    let same = short.iter().zip(long).take_while(|(x, y)| x == y).count();
    let (short, long) = (&short[same..], &long[same..]);
    match long.len() - short.len() {
        0 => match (short, long) {
            ([x, y, s @ ..], [v, w, l @ ..]) if (x, y) == (w, v) && s == l => true,
            ([_, s @ ..], [_, l @ ..]) => s == l,
            _ => false,
        },
        1 => short == &long[1..],
        _ => false,
    }
}

/// The first of these words that is one letter apart from this one.
pub fn near<'a>(word: &str, known: impl IntoIterator<Item = &'a str>) -> Option<&'a str> {
    known.into_iter().find(|other| one_off(word, other))
}

/// What a word may have been meant to be, to stand behind a message; nothing where no word is near.
pub fn hint<'a>(word: &str, known: impl IntoIterator<Item = &'a str>) -> String {
    near(word, known).map_or(String::new(), |other| format!("; is it {other}?"))
}

#[cfg(test)]
mod tests {
    use super::*;

    #[test]
    fn one_letter_apart() {
        for (a, b) in [("tail", "tial"), ("tail", "tai"), ("tail", "ttail"), ("tail", "mail"), ("ab", "ba")] {
            assert!(one_off(a, b) && one_off(b, a), "{a} {b}");
        }
        for (a, b) in [("tail", "tail"), ("tail", "ta"), ("tail", "mali"), ("", "ab"), ("head", "tail")] {
            assert!(!one_off(a, b) && !one_off(b, a), "{a} {b}");
        }
    }
}
