//! Statements of the text form, line by line. What is wrong with a line does not hide what is wrong with the others.
use super::expand::{expand, Expanded};
use super::line::{as_written, Line};
use super::statement::{Jump, Kind, Statement, Test, Word};
use super::tokens::Token;
use super::words::{self, KEYWORDS};
use super::wrong::{used, Wrong};
use crate::near::{hint, near};

/// The statements of a text, what is wrong with its lines, and what looks like a slip. Empty lines and remarks are left out. Some places of
/// arrays are known already.
pub fn statements(text: &[u8], given: &[String]) -> (Vec<Statement>, Vec<Wrong>, Vec<Wrong>) {
    let Expanded { lines, mut wrong, warnings } = expand(text, given);
    let mut all = Vec::new();
    for line in &lines {
        let tokens: Vec<Token> = line.pieces.iter().map(|piece| Token { text: &piece.text, column: piece.column }).collect();
        let read = line_of(&tokens, line, &mut all);
        wrong.extend(read.err().map(|one| Wrong { message: one.message + &used(&line.uses), ..one }));
    }
    wrong.sort();
    wrong.dedup();
    (all, wrong, warnings)
}

/// The statements of a line: a label, a statement, or both.
fn line_of(tokens: &[Token], at: &Line, all: &mut Vec<Statement>) -> Result<(), Wrong> {
    let (line, uses) = (at.number, at.uses.clone());
    let mut rest = tokens;
    if let [label, colon, behind @ ..] = tokens {
        if colon.text == ":" {
            let name = Reader::new(line, tokens).name("a label")?;
            let text = format!("{}:", as_written(label.text));
            all.push(Statement { line, column: label.column, kind: Kind::Label(name), text, uses: uses.clone() });
            rest = behind;
        }
    }
    let Some(first) = rest.first() else { return Ok(()) };
    let mut reader = Reader::new(line, rest);
    let kind = reader.statement()?;
    reader.nothing_more()?;
    let text = rest.iter().map(|token| as_written(token.text)).collect::<Vec<_>>().join(" ");
    all.push(Statement { line, column: first.column, kind, text, uses });
    Ok(())
}

/// The tokens of a line that are not read yet.
struct Reader<'a> {
    line: usize,
    /// The column behind the last token.
    end: usize,
    tokens: &'a [Token<'a>],
}

impl<'a> Reader<'a> {
    fn new(line: usize, tokens: &'a [Token<'a>]) -> Reader<'a> {
        let end = tokens.last().map_or(1, |t| t.column + t.text.chars().count());
        Reader { line, end, tokens }
    }

    fn error<T>(&self, column: usize, message: String) -> Result<T, Wrong> {
        Err(Wrong { line: self.line, column, message })
    }

    /// The next token; where there is none, what is missing.
    fn token(&mut self, wanted: &str) -> Result<Token<'a>, Wrong> {
        match self.tokens.split_first() {
            Some((first, rest)) => {
                self.tokens = rest;
                Ok(*first)
            }
            None => self.error(self.end, format!("{wanted} is missing")),
        }
    }

    fn word(&mut self, wanted: &str) -> Result<Word, Wrong> {
        let token = self.token(wanted)?;
        if !token.text.starts_with(|c: char| c.is_ascii_alphanumeric() || c == '_' || c == '-') {
            return self.error(token.column, format!("{wanted} is expected here, not {}", token.text));
        }
        Ok(Word { text: token.text.to_string(), column: token.column })
    }

    /// A name of the writer's own.
    fn name(&mut self, wanted: &str) -> Result<Word, Wrong> {
        let word = self.word(wanted)?;
        let letters = word.text.starts_with(|c: char| c.is_ascii_alphabetic() || c == '_') && !word.text.contains('-');
        if !letters || KEYWORDS.contains(&word.text.as_str()) {
            return self.error(word.column, format!("{wanted} is expected here, and {} cannot be a name", word.text));
        }
        Ok(word)
    }

    fn register(&mut self) -> Result<Word, Wrong> {
        self.word("a register")
    }

    fn operand(&mut self) -> Result<Word, Wrong> {
        self.word("a number or a register")
    }

    fn location(&mut self) -> Result<Word, Wrong> {
        self.word("a location (x0 to x7, or a name)")
    }

    fn expect(&mut self, sign: &str) -> Result<(), Wrong> {
        let token = self.token(sign)?;
        if token.text == sign {
            return Ok(());
        }
        self.error(token.column, format!("{sign} is expected here, not {}", token.text))
    }

    fn nothing_more(&self) -> Result<(), Wrong> {
        match self.tokens.first() {
            Some(token) => self.error(token.column, format!("the statement has ended; {} is too much", token.text)),
            None => Ok(()),
        }
    }

    fn statement(&mut self) -> Result<Kind, Wrong> {
        let first = self.token("a statement")?;
        Ok(match first.text {
            "thread" => Kind::Thread(if self.tokens.is_empty() { None } else { Some(self.name("a thread's name")?) }),
            "alike" => Kind::Alike(self.members()?),
            "const" => {
                let name = self.name("the constant's name")?;
                self.expect("=")?;
                Kind::Constant { name, value: self.word("a number")? }
            }
            "init" => Kind::Init { l: self.location()?, value: self.word("a number")? },
            "store" => Kind::Store { l: self.location()?, p: self.operand()? },
            "assert" => {
                let (r, test, p) = self.condition()?;
                Kind::Assert { r, test, p }
            }
            "if" => {
                let (r, test, p) = self.condition()?;
                Kind::If { r, test, p, to: self.jump()? }
            }
            "goto" => Kind::Goto(self.name("a label")?),
            "fail" => Kind::Fail,
            "fence" => Kind::Fence,
            _ => return self.assignment(first),
        })
    }

    /// `r0 == 1`, or another sign between the two.
    fn condition(&mut self) -> Result<(Word, Test, Word), Wrong> {
        let r = self.register()?;
        let sign = self.token("a comparison")?;
        let test = match sign.text {
            "==" => Test::Equal,
            "!=" => Test::Unequal,
            "<=" => Test::AtMost,
            ">" => Test::Above,
            "<" => Test::Below,
            ">=" => Test::AtLeast,
            other => return self.error(sign.column, format!("==, !=, <=, >, < or >= is expected here, not {other}")),
        };
        Ok((r, test, self.operand()?))
    }

    fn jump(&mut self) -> Result<Jump, Wrong> {
        let token = self.token("skip or goto")?;
        match token.text {
            "goto" => Ok(Jump::Goto(self.name("a label")?)),
            "skip" => {
                let word = self.word("a number of statements (1 to 15)")?;
                let number = word.text.parse().ok().filter(|n| (1..=15).contains(n));
                let message = format!("a skip is a number from 1 to 15, not {}", word.text);
                number.map_or_else(|| self.error(word.column, message), |n| Ok(Jump::Skip(n)))
            }
            other => self.error(token.column, format!("skip or goto is expected here, not {other}")),
        }
    }

    /// A statement that begins with a register or its name.
    fn assignment(&mut self, first: Token) -> Result<Kind, Wrong> {
        let r = Word { text: first.text.to_string(), column: first.column };
        if let Some(name) = taken_away(first, self.tokens) {
            return self.error(first.column, format!("there is no -=; a negative number is added: {name} += -1"));
        }
        let assigns = matches!(self.tokens.first(), Some(sign) if ["=", "+="].contains(&sign.text));
        if !assigns && words::register(first.text).is_none() {
            return self.error(first.column, unknown(first.text));
        }
        let sign = self.token("= or +=")?;
        match sign.text {
            "+=" => return Ok(Kind::Add { r, p: self.operand()? }),
            "=" => {}
            other => return self.error(sign.column, format!("= or += is expected here, not {other}")),
        }
        let what = self.tokens.first().map_or("", |token| token.text);
        if ACCESSES.contains(&what) {
            self.token(what)?;
        } else if let ([other, _, ..], true) = (self.tokens, what.starts_with(|c: char| c.is_ascii_alphabetic())) {
            let hint = hint(what, ACCESSES);
            let message = format!("behind = stands a number, a register, load, fetch_add or cas, not {what} with operands{hint}");
            return self.error(other.column, message);
        }
        Ok(match what {
            "load" => Kind::Load { r, l: self.location()? },
            "fetch_add" => Kind::FetchAdd { r, l: self.location()?, p: self.operand()? },
            "cas" => Kind::CompareSwap { r, l: self.location()?, e: self.operand()?, v: self.operand()? },
            _ => Kind::Set { r, p: self.operand()? },
        })
    }

    /// The members of an alike line: as many as there are.
    fn members(&mut self) -> Result<Vec<Word>, Wrong> {
        let mut members = Vec::new();
        while members.len() < 2 || !self.tokens.is_empty() {
            let word = self.word("a thread (alike takes two to six)")?;
            if members.len() == 6 {
                return self.error(word.column, "alike takes two to six threads".to_string());
            }
            members.push(word);
        }
        Ok(members)
    }
}

/// The accesses that give a register the old value.
const ACCESSES: [&str; 3] = ["load", "fetch_add", "cas"];

/// What would be taken something from, where a statement has -= behind its first word: the sign joins the word before it, or stands alone.
fn taken_away<'a>(first: Token<'a>, rest: &[Token]) -> Option<&'a str> {
    match rest {
        [minus, equal, ..] if minus.text == "-" && equal.text == "=" => Some(first.text),
        [equal, ..] if equal.text == "=" => first.text.strip_suffix('-'),
        _ => None,
    }
}

/// A statement that begins with an unknown word.
fn unknown(word: &str) -> String {
    match (word, near(word, KEYWORDS)) {
        ("mfence", _) => format!("a statement does not begin with {word}; the fence of the text form is fence"),
        // never fence in their place: it forbids more than they do
        ("lfence", _) => format!("there is no {word}, leave it out: x86 keeps the order of loads without it; fence is MFENCE"),
        ("sfence", _) => format!("there is no {word}, leave it out: x86 keeps the order of stores without it; fence is MFENCE"),
        ("load" | "fetch_add" | "cas", _) => format!("{word} needs a register for the old value: r0 = {word} .."),
        (_, Some(known)) => format!("a statement does not begin with {word}; is it {known}?"),
        _ => format!(
            "a statement does not begin with {word}; it begins with thread, alike, const, init, store, if, goto, assert, fail, fence, exists, forbid, forall, expect, repeat, def, \
             or a register"
        ),
    }
}
