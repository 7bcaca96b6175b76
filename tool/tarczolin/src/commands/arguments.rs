//! The words behind a command: files and options. `--` ends the options. A file's name may be any bytes.
use super::meant::meant;
use super::opt::Opt;
use crate::error::Error;
use crate::hex;
use crate::input;
use crate::schedule::{Schedule, NO_STEP};
use std::ffi::{OsStr, OsString};
use std::os::unix::ffi::OsStrExt;

#[derive(Default)]
pub struct Arguments {
    words: Vec<OsString>,
    options: Vec<(&'static str, OsString)>,
}

impl Arguments {
    /// Sorts the words; an option that is not among these is bad usage.
    pub fn of(words: &[OsString], known: &[Opt]) -> Result<Arguments, Error> {
        let mut all = Arguments::default();
        let mut words = words.iter();
        while let Some(word) = words.next() {
            if word == "--" {
                all.words.extend(words.cloned());
                break;
            }
            if word == "-" || !word.as_bytes().starts_with(b"-") {
                all.words.push(word.clone());
                continue;
            }
            let (name, given) = divided(word);
            let Some(option) = known.iter().find(|option| option.name == name) else { return Err(unknown(&name, known)) };
            let value = match (option.value, given) {
                (None, None) => OsString::new(),
                (None, Some(_)) => return Err(Error::usage(format!("{name} takes no value"))),
                (Some(_), given) => {
                    let next = given.or_else(|| words.next().cloned());
                    next.ok_or_else(|| Error::usage(format!("{name} needs a value")))?
                }
            };
            all.options.push((option.name, value));
        }
        Ok(all)
    }

    /// The words that are no options, exactly so many; any other number is bad usage.
    pub fn files<const N: usize>(&self) -> Result<[&OsStr; N], Error> {
        self.names()?.try_into().map_err(|_| Error::Words)
    }

    /// The words that are no options, at least one.
    pub fn names(&self) -> Result<Vec<&OsStr>, Error> {
        let words: Vec<&OsStr> = self.words.iter().map(OsString::as_os_str).collect();
        if words.iter().filter(|word| **word == "-").count() > 1 {
            return Err(Error::usage("standard input can be read only once"));
        }
        if words.is_empty() {
            return Err(Error::Words);
        }
        Ok(words)
    }

    /// The only word, or none; more are bad usage.
    pub fn at_most_one(&self) -> Result<Option<&OsStr>, Error> {
        match self.words.as_slice() {
            [] => Ok(None),
            [word] => Ok(Some(word)),
            _ => Err(Error::Words),
        }
    }

    /// The first word, and the schedule that the others write, if there are any.
    pub fn file_and_schedule(&self) -> Result<(&OsStr, Option<Vec<u8>>), Error> {
        match self.words.split_first() {
            None => Err(Error::Words),
            Some((file, [])) => Ok((file, None)),
            Some((file, [word])) if word == "-" => {
                if file == "-" {
                    return Err(Error::usage("standard input can be read only once"));
                }
                Ok((file, Some(schedule(&input::text(word)?)?)))
            }
            Some((file, words)) => {
                let words: Vec<&[u8]> = words.iter().map(|word| word.as_bytes()).collect();
                Ok((file, Some(schedule(&words.concat())?)))
            }
        }
    }

    /// The value of an option that names a file, the last one where it is given more than once.
    pub fn path(&self, name: &str) -> Option<&OsStr> {
        self.options.iter().rev().find(|(known, _)| *known == name).map(|(_, value)| value.as_os_str())
    }

    /// The value of an option that is a text.
    pub fn option(&self, name: &str) -> Result<Option<&str>, Error> {
        let Some(value) = self.path(name) else { return Ok(None) };
        let text = value.to_str();
        text.map(Some).ok_or_else(|| Error::usage(format!("{name} takes a text, and {} is not UTF-8", value.to_string_lossy())))
    }

    /// Is this option given?
    pub fn flag(&self, name: &str) -> bool {
        self.path(name).is_some()
    }

    /// Are these given together? Only one of them can be.
    pub fn one_of_these(&self, names: &[&str]) -> Result<(), Error> {
        let given: Vec<&str> = names.iter().filter(|name| self.flag(name)).copied().collect();
        match given.as_slice() {
            [] | [_] => Ok(()),
            _ => Err(Error::usage(format!("{} cannot be given together", given.join(" and ")))),
        }
    }

    /// The word that an option takes, one of these.
    pub fn one_of<T: Copy>(&self, name: &str, words: &[(&str, T)], otherwise: T) -> Result<T, Error> {
        let Some(given) = self.option(name)? else { return Ok(otherwise) };
        let known: Vec<&str> = words.iter().map(|(word, _)| *word).collect();
        let found = words.iter().find(|(word, _)| *word == given).map(|(_, value)| *value);
        found.ok_or_else(|| Error::usage(format!("{name} takes the word {}, not {given}", known.join(" or "))))
    }

    /// The value of an option that is a number from 1 to some limit; 1 where it is not given.
    pub fn number(&self, name: &str, most: u64) -> Result<u64, Error> {
        let Some(value) = self.option(name)? else { return Ok(1) };
        let number = value.parse().ok().filter(|number| (1..=most).contains(number));
        let range = if most == u64::MAX { "on".to_string() } else { format!("to {most}") };
        number.ok_or_else(|| Error::usage(format!("{name} takes a number from 1 {range}, not {value}")))
    }

    /// The value of an option that is a schedule of at most so many steps.
    pub fn schedule(&self, name: &str, most: usize) -> Result<Option<Schedule>, Error> {
        let Some(value) = self.path(name) else { return Ok(None) };
        let steps = schedule(value.as_bytes())?;
        if steps.len() > most {
            return Err(Error::usage(format!("{name} takes a schedule of at most {most} steps")));
        }
        Ok(Some(steps.into_iter().collect()))
    }
}

/// An option's name, and the value behind = in the same word.
fn divided(word: &OsStr) -> (String, Option<OsString>) {
    let text = |bytes: &[u8]| String::from_utf8_lossy(bytes).into_owned();
    let bytes = word.as_bytes();
    match bytes.iter().position(|c| *c == b'=') {
        Some(at) => (text(&bytes[..at]), Some(OsStr::from_bytes(&bytes[at + 1..]).to_os_string())),
        None => (text(bytes), None),
    }
}

/// May this word be a schedule or a part of one?
pub fn may_be_schedule(word: &OsStr) -> bool {
    let written = || NO_STEP.split(' ').any(|part| word == part);
    word == "-" || word == NO_STEP || written() || word.as_bytes().iter().all(u8::is_ascii_hexdigit)
}

/// The schedule of these digits, or the empty one as it is printed.
fn schedule(digits: &[u8]) -> Result<Vec<u8>, Error> {
    let bare = |text: &[u8]| text.iter().copied().filter(|c| !c.is_ascii_whitespace()).collect::<Vec<u8>>();
    let digits = bare(digits);
    if digits == bare(NO_STEP.as_bytes()) {
        return Ok(Vec::new());
    }
    hex::bytes(&digits).ok_or_else(|| {
        let text = String::from_utf8_lossy(&digits);
        Error::usage(format!("{text} is no schedule: it takes two digits (0-9, a-f) a step, as in 00000101"))
    })
}

/// What is said of an option that the command has not.
fn unknown(name: &str, known: &[Opt]) -> Error {
    if name == "--model" {
        let who = "judge, force, sample and users stay with sequential consistency, and covers takes --under";
        return Error::usage(format!("there is no option --model here: this command knows no other model; {who}"));
    }
    let hint = meant(name, known.iter().map(|option| option.name));
    let hint = if hint.is_empty() { "; a file whose name begins so stands behind --" } else { &hint };
    Error::usage(format!("there is no option {name} here{hint}"))
}
