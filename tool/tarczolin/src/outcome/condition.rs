//! Questions about the end of an execution: `tail=2 & T2.r1=0`, `fails | !(consumer.item = ITEM)`.
use super::end::Final;
use crate::ask::Outcome;
use crate::asm::constant;
use crate::near::hint;
use crate::program::{Program, LOCATIONS, REGISTERS};
use std::collections::VecDeque;

#[derive(Clone, Debug, PartialEq, Eq)]
pub enum Condition {
    Equal(Value, Value),
    /// Of every end, or of none.
    Always(bool),
    /// Some thread fails, or this one.
    Fails(Option<u8>),
    Not(Box<Condition>),
    All(Vec<Condition>),
    Any(Vec<Condition>),
}

/// So many brackets and `!` may stand inside each other: nobody writes more, and each takes room on the stack.
const DEEPEST: usize = 100;

#[derive(Clone, Copy, Debug, PartialEq, Eq)]
pub enum Value {
    Number(u32),
    Location(u8),
    Register(u8, u8),
}

impl Value {
    fn of(self, end: &Final) -> u32 {
        match self {
            Value::Number(value) => value,
            Value::Location(l) => end.memory[l as usize],
            Value::Register(t, r) => end.registers[t as usize][r as usize],
        }
    }
}

/// What is wrong with a condition, and at which of its characters, from 0.
#[derive(Clone, Debug, PartialEq, Eq)]
pub struct Misread {
    pub at: usize,
    pub message: String,
}

impl Condition {
    /// Reads a condition; names are those of the program, its constants among them.
    pub fn of(text: &str, program: &Program) -> Result<Condition, String> {
        Condition::read(text, program).map_err(|misread| misread.message)
    }

    /// The same; what is wrong with it has its place.
    pub fn read(text: &str, program: &Program) -> Result<Condition, Misread> {
        let mut reader = Reader { tokens: tokens(text)?.into(), end: text.chars().count(), depth: 0, program };
        let read = reader.either().and_then(|condition| match reader.tokens.front() {
            None => Ok(condition),
            Some((_, token)) => Err(format!("the condition has ended; {token} is too much{}", joint(token))),
        });
        read.map_err(|message| Misread { at: reader.place(), message })
    }

    pub fn holds(&self, end: &Final) -> bool {
        self.holds_by(&|value| value.of(end), &|thread| match thread {
            None => end.fails(),
            Some(t) => end.failed[t as usize].is_some(),
        })
    }

    /// Does it speak of final memory and of whether anything fails, and of nothing else? Then the outcomes decide it.
    pub fn is_of_memory(&self) -> bool {
        let of_memory = |value: &Value| !matches!(value, Value::Register(..));
        match self {
            Condition::Equal(a, b) => of_memory(a) && of_memory(b),
            Condition::Always(_) | Condition::Fails(None) => true,
            Condition::Fails(Some(_)) => false,
            Condition::Not(inner) => inner.is_of_memory(),
            Condition::All(all) | Condition::Any(all) => all.iter().all(Condition::is_of_memory),
        }
    }

    /// Whether a condition that is of memory alone holds of an outcome.
    pub fn holds_of(&self, outcome: &Outcome) -> bool {
        const ALONE: &str = "the condition is of memory alone";
        let value = |value: Value| match value {
            Value::Number(value) => value,
            Value::Location(l) => outcome.memory[l as usize],
            Value::Register(..) => unreachable!("{ALONE}"),
        };
        self.holds_by(&value, &|thread| match thread {
            None => outcome.fails,
            Some(_) => unreachable!("{ALONE}"),
        })
    }

    fn holds_by(&self, value: &dyn Fn(Value) -> u32, fails: &dyn Fn(Option<u8>) -> bool) -> bool {
        match self {
            Condition::Equal(a, b) => value(*a) == value(*b),
            Condition::Always(holds) => *holds,
            Condition::Fails(thread) => fails(*thread),
            Condition::Not(inner) => !inner.holds_by(value, fails),
            Condition::All(all) => all.iter().all(|one| one.holds_by(value, fails)),
            Condition::Any(all) => all.iter().any(|one| one.holds_by(value, fails)),
        }
    }
}

/// The words and signs of a condition, each with its place among the characters, from 0.
fn tokens(text: &str) -> Result<Vec<(usize, String)>, Misread> {
    let mut tokens: Vec<(usize, String)> = Vec::new();
    let mut inside = false;
    for (at, c) in text.chars().enumerate() {
        let word = c.is_ascii_alphanumeric() || "_.-[]".contains(c);
        let last = tokens.last().map_or("", |(_, last)| last);
        // && and || are the same as & and |
        let again = "&|".contains(c) && last == c.to_string();
        let joins = (word && inside) || (c == '=' && ["=", "!"].contains(&last));
        match c {
            _ if c.is_whitespace() || again => {}
            _ if joins => tokens.last_mut().expect("begun").1.push(c),
            _ if word || "()&|=!".contains(c) => tokens.push((at, c.to_string())),
            _ => return Err(Misread { at, message: format!("the character {c} has no meaning here") }),
        }
        inside = word;
    }
    Ok(tokens)
}

/// What to write instead of a word that other languages join conditions by.
fn joint(token: &str) -> &'static str {
    match token.to_ascii_lowercase().as_str() {
        "and" => "; && joins two conditions",
        "or" => "; || stands between two conditions of which one is enough",
        _ => "",
    }
}

struct Reader<'a> {
    tokens: VecDeque<(usize, String)>,
    /// The place behind the last character.
    end: usize,
    /// So many brackets and `!` are open.
    depth: usize,
    program: &'a Program,
}

impl Reader<'_> {
    /// Where it stands: at the next token, or at the end.
    fn place(&self) -> usize {
        self.tokens.front().map_or(self.end, |(at, _)| *at)
    }

    fn next_is(&self, signs: &[&str]) -> bool {
        self.tokens.front().is_some_and(|(_, token)| signs.contains(&token.as_str()))
    }

    fn take(&mut self, sign: &str) -> bool {
        let found = self.next_is(&[sign]);
        if found {
            self.tokens.pop_front();
        }
        found
    }

    /// The next token, which is a word. It is taken only once its meaning is known, so that what is wrong with it has its place.
    fn word(&self) -> Result<String, String> {
        match self.tokens.front() {
            Some((_, token)) if token.starts_with(|c: char| c.is_ascii_alphanumeric() || "_-".contains(c)) => Ok(token.clone()),
            Some((_, token)) => Err(format!("a location, a register or a number is expected, not {token}")),
            None => Err("a location, a register or a number is missing".to_string()),
        }
    }

    fn next_value(&mut self) -> Result<Value, String> {
        let value = self.value(&self.word()?)?;
        self.tokens.pop_front();
        Ok(value)
    }

    fn either(&mut self) -> Result<Condition, String> {
        let mut all = vec![self.both()?];
        while self.take("|") {
            all.push(self.both()?);
        }
        Ok(if all.len() == 1 { all.remove(0) } else { Condition::Any(all) })
    }

    fn both(&mut self) -> Result<Condition, String> {
        let mut all = vec![self.single()?];
        while self.take("&") {
            all.push(self.single()?);
        }
        Ok(if all.len() == 1 { all.remove(0) } else { Condition::All(all) })
    }

    fn single(&mut self) -> Result<Condition, String> {
        if self.take("!") {
            return Ok(Condition::Not(Box::new(self.inside(Reader::single)?)));
        }
        if self.take("(") {
            let inner = self.inside(Reader::either)?;
            return if self.take(")") { Ok(inner) } else { Err(") is missing".to_string()) };
        }
        self.comparison()
    }

    /// What stands behind a bracket or a `!`.
    fn inside(&mut self, read: fn(&mut Self) -> Result<Condition, String>) -> Result<Condition, String> {
        if self.depth == DEEPEST {
            return Err(format!("more than {DEEPEST} brackets and ! stand inside each other"));
        }
        self.depth += 1;
        let inner = read(self);
        self.depth -= 1;
        inner
    }

    fn comparison(&mut self) -> Result<Condition, String> {
        let word = self.word()?;
        let compared = self.tokens.get(1).is_some_and(|(_, token)| ["=", "==", "!="].contains(&token.as_str()));
        if !compared {
            if let Some(condition) = self.by_itself(&word)? {
                self.tokens.pop_front();
                return Ok(condition);
            }
        }
        let left = self.next_value()?;
        let differs = self.take("!=");
        if !differs && !self.take("=") && !self.take("==") {
            return Err(format!("= or != is expected behind {word}"));
        }
        let equal = Condition::Equal(left, self.next_value()?);
        Ok(if differs { Condition::Not(Box::new(equal)) } else { equal })
    }

    /// A word that is a condition without a comparison: `fails`, `T2.fails`, `true`, `false`.
    fn by_itself(&self, word: &str) -> Result<Option<Condition>, String> {
        Ok(match word {
            "fails" => Some(Condition::Fails(None)),
            "true" | "false" => Some(Condition::Always(word == "true")),
            _ => match word.strip_suffix(".fails") {
                Some(thread) => Some(Condition::Fails(Some(self.thread(thread)?))),
                None => None,
            },
        })
    }

    fn thread(&self, word: &str) -> Result<u8, String> {
        let names = &self.program.names;
        let called = |t: &u8| names.thread(*t) == word || format!("T{t}") == word;
        let found = self.program.numbers().find(called);
        found.ok_or_else(|| self.unknown("thread", word, self.program.numbers().map(|t| names.thread(t)).collect()))
    }

    fn value(&self, word: &str) -> Result<Value, String> {
        if let Some(number) = constant(word) {
            return number.map(Value::Number);
        }
        let names = &self.program.names;
        if let Some((thread, register)) = word.split_once('.') {
            let t = self.thread(thread)?;
            let called = |r: &u8| names.register(t, *r) == register || format!("r{r}") == register;
            let found = (0..REGISTERS).find(called);
            let known = || (0..REGISTERS).map(|r| names.register(t, r)).collect();
            return found.map(|r| Value::Register(t, r)).ok_or_else(|| self.unknown("register", register, known()));
        }
        if let Some(value) = names.constants.get(word) {
            return Ok(Value::Number(*value));
        }
        // a place of an array, its index a constant: next[LAST]
        let index = word.strip_suffix(']').and_then(|word| word.split_once('['));
        let place = index.and_then(|(array, index)| Some(format!("{array}[{}]", names.constants.get(index)?)));
        let word = place.as_deref().unwrap_or(word);
        let called = |l: &u8| names.location(*l) == word || format!("x{l}") == word;
        let found = (0..LOCATIONS).find(called);
        let known = || (0..LOCATIONS).map(|l| names.location(l)).chain(names.constants.keys().cloned()).collect();
        found.map(Value::Location).ok_or_else(|| self.unknown("location", word, known()))
    }

    fn unknown(&self, what: &str, word: &str, known: Vec<String>) -> String {
        let hint = hint(word, known.iter().map(String::as_str));
        format!("there is no {what} {word}{hint}")
    }
}
