//! The condition of a litmus test, by the signs that `outcomes --where` has: `0:EAX=1 /\ [x]=2` is `P0.eax=1 & x=2`.
use super::operand::register;
use super::part::Part;
use crate::asm::{constant, Wrong};
use std::collections::BTreeSet;

/// A condition in the signs of `--where`, and the registers and locations that it names.
pub struct Asked {
    pub text: String,
    pub registers: BTreeSet<(usize, String)>,
    pub locations: BTreeSet<String>,
}

/// What the test asks for. Locations that the test does not know are wrong: that a mistyped one is 0 would answer another question.
pub fn condition(part: Part, known: &BTreeSet<String>) -> Result<Asked, Wrong> {
    let mut asked = Asked { text: String::new(), registers: BTreeSet::new(), locations: BTreeSet::new() };
    let mut rest = part;
    let mut compared = false;
    while !rest.is_empty() {
        let length = rest.text().find(|c| !is_word(c)).unwrap_or(rest.text().len());
        let (word, behind) = rest.split_at(length);
        if length > 0 {
            let said = asked.word(word, compared, known)?;
            asked.text += &said;
            (compared, rest) = (false, behind);
            continue;
        }
        let (sign, length) = sign(rest);
        let space = sign == " " && (asked.text.ends_with(' ') || asked.text.is_empty());
        asked.text += if space { "" } else { sign };
        compared = if sign == " " { compared } else { sign == "=" };
        rest = rest.split_at(length).1;
    }
    asked.text = asked.text.trim().replace("  ", " ");
    Ok(asked)
}

fn is_word(c: char) -> bool {
    c.is_ascii_alphanumeric() || "_:.-".contains(c)
}

/// A sign as `--where` has it, and how many bytes it takes here.
fn sign(rest: Part<'_>) -> (&str, usize) {
    let text = rest.text();
    let first = text.chars().next().map_or(0, char::len_utf8);
    match &text[..first] {
        "/" if text.starts_with("/\\") => (" & ", 2),
        "\\" if text.starts_with("\\/") => (" | ", 2),
        "~" => ("!", 1),
        "[" | "]" => ("", 1),
        c if c.trim().is_empty() => (" ", first),
        other => (other, first),
    }
}

impl Asked {
    /// A word: a register of a thread, a location, a number. Behind a comparison stands no location: there it would be its address.
    fn word(&mut self, part: Part, compared: bool, known: &BTreeSet<String>) -> Result<String, Wrong> {
        let word = part.text();
        if let Some((thread, name)) = part.split_once(':') {
            let number = thread.text().trim_start_matches('P').parse();
            let number: usize = number.map_err(|_| part.wrong(format!("{} is no thread; 0:EAX is a register", thread.text())))?;
            let name = register(name)?;
            self.registers.insert((number, name.clone()));
            return Ok(format!("P{number}.{name}"));
        }
        match (word, constant(word)) {
            ("not", _) => Ok("!".to_string()),
            ("true" | "false", _) | (_, Some(Ok(_))) => Ok(word.to_string()),
            (_, Some(Err(message))) => Err(part.wrong(message)),
            _ if !known.contains(word) => {
                Err(part.wrong(format!("there is no location {word} in the code or among the initial values")))
            }
            _ if compared => Err(part.wrong(format!("the address of {word} has no place here; a number stands behind ="))),
            _ => {
                self.locations.insert(word.to_string());
                Ok(word.to_string())
            }
        }
    }
}
