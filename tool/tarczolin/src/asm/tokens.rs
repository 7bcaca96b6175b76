//! The words of a line, each with its column.
use super::wrong::Wrong;

#[derive(Clone, Copy, Debug, PartialEq, Eq)]
pub struct Token<'a> {
    pub text: &'a str,
    pub column: usize,
}

/// What a character belongs to.
#[derive(Clone, Copy, PartialEq, Eq)]
enum Class {
    Space,
    Word,
    Sign,
    Colon,
    Dots,
    /// A sign by itself, whatever stands beside it.
    Alone,
}

fn class(c: char) -> Option<Class> {
    match c {
        c if c.is_whitespace() => Some(Class::Space),
        'a'..='z' | 'A'..='Z' | '0'..='9' | '_' | '-' => Some(Class::Word),
        '=' | '!' | '+' | '<' | '>' => Some(Class::Sign),
        ':' => Some(Class::Colon),
        '.' => Some(Class::Dots),
        '{' | '}' | '(' | ')' | '[' | ']' | ',' | '*' => Some(Class::Alone),
        _ => None,
    }
}

/// The words of a line up to its remark, which begins with #: letters and digits together, signs together.
pub fn tokens(line: &str, number: usize) -> Result<Vec<Token<'_>>, Wrong> {
    let mut tokens: Vec<Token> = Vec::new();
    let mut last = Class::Space;
    let mut began = 0;
    for (column, (at, c)) in line.char_indices().enumerate() {
        if c == '#' {
            break;
        }
        let Some(class) = class(c) else {
            let message = format!("the character {c} has no meaning here");
            return Err(Wrong { line: number, column: column + 1, message });
        };
        if class != Class::Space {
            if class != last || class == Class::Alone {
                began = at;
                tokens.push(Token { text: "", column: column + 1 });
            }
            tokens.last_mut().expect("just begun").text = &line[began..at + c.len_utf8()];
        }
        last = class;
    }
    Ok(tokens)
}
