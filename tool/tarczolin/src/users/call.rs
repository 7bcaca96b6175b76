//! A line that asks a host for something.
use super::field::Field;
use crate::hex;

/// What a line asks for.
#[derive(Clone, Debug, PartialEq, Eq)]
pub enum Call {
    /// Open for this caller with the program of this file.
    Open(usize, String),
    Ask(usize),
    Serve,
    Close(usize),
    /// Set a mark of this name.
    Set(usize, Vec<u8>),
    /// Return to it.
    Return(usize, Vec<u8>),
    /// Forget it.
    Forget(usize, Vec<u8>),
    /// How many schedules were handed to this caller since it opened.
    Count(usize),
    /// Put these bytes into a field.
    Raw(Field, Vec<u8>),
}

/// The lines that there are, for messages.
const LINES: &str =
    "open CALLER FILE, ask CALLER, serve, close CALLER, set CALLER NAME, return CALLER NAME, forget CALLER NAME, count CALLER, \
                     raw CALLER FIELD HEX; a NAME is digits, two a byte";

impl Call {
    /// What a line asks for; nothing where it is empty or a remark. Else what is wrong with it.
    pub fn of_line(line: &str) -> Result<Option<Call>, String> {
        let (name, rest) = split(line);
        let call = match (name, rest) {
            ("", _) => return Ok(None),
            (name, _) if name.starts_with('#') => return Ok(None),
            ("open", rest) => {
                let (caller, file) = split(rest);
                match (number(caller)?, file) {
                    (_, "" | "-") => return Err("open needs a file, which standard input cannot be".to_string()),
                    (caller, file) => Call::Open(caller, file.to_string()),
                }
            }
            ("ask", caller) => Call::Ask(number(caller)?),
            ("serve", "") => Call::Serve,
            ("close", caller) => Call::Close(number(caller)?),
            ("set", rest) => named(rest, Call::Set)?,
            ("return", rest) => named(rest, Call::Return)?,
            ("forget", rest) => named(rest, Call::Forget)?,
            ("count", caller) => Call::Count(counted(caller)?),
            ("raw", rest) => raw(rest)?,
            _ => return Err(format!("this is none of the lines {LINES}")),
        };
        Ok(Some(call))
    }
}

/// The first word, and what stands behind it.
fn split(text: &str) -> (&str, &str) {
    let text = text.trim();
    match text.split_once(char::is_whitespace) {
        Some((first, rest)) => (first, rest.trim()),
        None => (text, ""),
    }
}

fn number(word: &str) -> Result<usize, String> {
    word.parse().map_err(|_| format!("a caller is a number, and {word:?} is none"))
}

/// A caller whose record is there to look at: no call of the library tells the count.
fn counted(word: &str) -> Result<usize, String> {
    number(word).and_then(|caller| if caller < 4 { Ok(caller) } else { Err("there are records of 0 to 3".to_string()) })
}

/// `0 6162`: a caller and a name, which the library refuses where it has another length than 1 to 8 bytes.
fn named(rest: &str, call: fn(usize, Vec<u8>) -> Call) -> Result<Call, String> {
    let (caller, digits) = split(rest);
    let name =
        hex::bytes(digits.as_bytes()).ok_or_else(|| format!("a name takes two digits (0-9, a-f) a byte, not {digits:?}"))?;
    Ok(call(number(caller)?, name))
}

/// `0 place 02`, `last 07`.
fn raw(rest: &str) -> Result<Call, String> {
    let (first, behind) = split(rest);
    let (field, digits) = match first {
        "last" => (Field::of_host(first), behind),
        caller => {
            let (name, digits) = split(behind);
            (Field::of_record(number(caller)?, name), digits)
        }
    };
    let field = field.ok_or_else(|| format!("a record of 0 to 3 has the fields {}, and the host last", Field::NAMES))?;
    let bytes = hex::bytes(digits.as_bytes()).filter(|bytes| !bytes.is_empty() && bytes.len() <= field.size());
    let bytes = bytes.ok_or_else(|| format!("this field takes 1 to {} bytes, two digits each", field.size()))?;
    Ok(Call::Raw(field, bytes))
}

#[cfg(test)]
mod tests {
    use super::*;

    #[test]
    fn lines() {
        let call = |line| Call::of_line(line).unwrap();
        assert_eq!(call(" open  0   a file.hex "), Some(Call::Open(0, "a file.hex".to_string())));
        assert_eq!(call("ask 256"), Some(Call::Ask(256)));
        assert_eq!([call(""), call("  "), call("# serve")], [None, None, None]);
        assert_eq!(call("set 1 6d00"), Some(Call::Set(1, vec![0x6d, 0])));
        assert_eq!(call("forget 1"), Some(Call::Forget(1, vec![])));
        assert_eq!(call("raw last 09"), Some(Call::Raw(Field::of_host("last").unwrap(), vec![9])));
        for wrong in [
            "open 0",
            "open 0 -",
            "open x f",
            "ask",
            "ask x",
            "serve 0",
            "close -1",
            "set 1 6",
            "return 1 zz",
            "forget",
            "raw 0 mark8.place 00",
            "count 4",
            "raw 4 place 01",
            "raw 0 places 01",
        ] {
            assert!(Call::of_line(wrong).is_err(), "{wrong}");
        }
        for wrong in [
            "raw 0 place",
            "raw 0 place 1",
            "raw 0 place 0102",
            "raw 0 place xy",
            "raw 0 length 000000000000000001",
            "serves",
            "Serve",
        ] {
            assert!(Call::of_line(wrong).is_err(), "{wrong}");
        }
    }
}
