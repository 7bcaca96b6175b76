//! What files are called, and texts of which a terminal obeys nothing.
use std::ffi::OsStr;

/// A text for the eye: each control character is written out, save the ends of lines and tabs.
pub fn visible(text: &str) -> String {
    written_out(text, |c| c.is_control() && c != '\n' && c != '\t')
}

/// A text with these characters written out, as `\u{1b}` or `\n`.
fn written_out(text: &str, which: impl Fn(char) -> bool) -> String {
    let one = |c: char| if which(c) { c.escape_default().to_string() } else { c.to_string() };
    text.chars().map(one).collect()
}

/// What a file is called in messages, in one line.
pub fn called(name: &OsStr) -> String {
    written_out(&recorded(name), char::is_control)
}

/// What a file is called in records for programs; bytes of a name that are no text are left out of it, each by one sign.
pub fn recorded(name: &OsStr) -> String {
    match name.to_string_lossy().as_ref() {
        "-" => "standard input".to_string(),
        "" => "a file without a name".to_string(),
        other => other.to_string(),
    }
}

#[cfg(test)]
mod tests {
    use super::*;

    #[test]
    fn nothing_that_a_terminal_obeys() {
        assert_eq!(visible("a\x1b[2J\tb\n"), "a\\u{1b}[2J\tb\n");
        assert_eq!(called(OsStr::new("a\nb\u{7}")), "a\\nb\\u{7}");
        assert_eq!((called(OsStr::new("-")), recorded(OsStr::new("a\nb"))), ("standard input".to_string(), "a\nb".to_string()));
    }
}
