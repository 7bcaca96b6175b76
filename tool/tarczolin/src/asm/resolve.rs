//! The code of one thread with numbers in place of names.
use super::condition::Condition;
use super::line::as_written;
use super::statement::{Jump, Kind, Statement, Test, Word};
use super::symbols::Symbols;
use super::words;
use super::wrong::Wrongs;
use crate::near::hint;
use crate::program::{Instruction, Operand, REGISTERS};
use std::collections::BTreeMap;

/// A statement with numbers. Jumps name the place in the thread's code that they go to.
#[derive(Clone, Copy, Debug, PartialEq, Eq)]
pub enum Code {
    Plain(Instruction),
    If { condition: Condition, to: usize },
    Goto(usize),
    Assert(Condition),
    Fail,
    Fence,
}

/// One thread: its statements, and what its names mean.
pub struct Scope<'a> {
    symbols: &'a Symbols,
    /// The statements that become code, and where each label stands among them.
    body: Vec<&'a Statement>,
    labels: BTreeMap<&'a str, (usize, &'a Statement)>,
    pub registers: BTreeMap<String, u8>,
}

impl<'a> Scope<'a> {
    /// Takes in the statements of a thread, by its number, its labels among them.
    pub fn of(symbols: &'a Symbols, thread: usize, statements: &[&'a Statement], wrong: &mut Wrongs) -> Scope<'a> {
        let (mut body, mut labels) = (Vec::new(), BTreeMap::new());
        for &statement in statements {
            let Kind::Label(name) = &statement.kind else {
                body.push(statement);
                continue;
            };
            if labels.insert(name.text.as_str(), (body.len(), statement)).is_some() {
                wrong.add(statement, name, format!("the label {} stands in this thread twice", as_written(&name.text)));
            }
        }
        let mut registers = BTreeMap::new();
        for (r, name) in symbols.given.threads.get(thread).iter().flat_map(|of| (0..).zip(&of.registers)) {
            let free = |name: &&String| !symbols.locations.contains_key(*name) && !symbols.constants.contains_key(*name);
            if let Some(name) = name.as_ref().filter(free) {
                registers.insert(name.clone(), r);
            }
        }
        let mut scope = Scope { symbols, body, labels, registers };
        scope.find_registers(wrong);
        scope
    }

    /// Numbers for named registers that no name line names: in order of first use, each the least that the thread does not write out.
    fn find_registers(&mut self, wrong: &mut Wrongs) {
        let written = |s: &&Statement| s.text.split(' ').filter_map(|word| words::register(word)?.ok()).collect::<Vec<u8>>();
        let taken: Vec<u8> = self.body.iter().flat_map(written).collect();
        let given: Vec<u8> = self.registers.values().copied().collect();
        let mut free = (0..REGISTERS).filter(|r| !taken.contains(r) && !given.contains(r));
        for statement in &self.body {
            let Some(word) = statement.kind.target() else { continue };
            let name = &word.text;
            if words::register(name).is_some() || self.registers.contains_key(name) {
                continue;
            }
            if self.symbols.locations.contains_key(name) {
                wrong.add(statement, word, format!("{name} is a location; it is written by: store {name} .."));
            } else if self.symbols.constants.contains_key(name) || !words::is_name(name) {
                wrong.add(statement, word, format!("{name} cannot be given a value: it is no register"));
            } else if let Some(r) = free.next() {
                self.registers.insert(name.clone(), r);
            } else {
                wrong.add(statement, word, format!("{name} is one register too many; a thread has {REGISTERS}"));
            }
        }
    }

    /// The code, each with its statement. Where something is wrong, it is told and a stand-in is taken.
    pub fn code(&self, wrong: &mut Wrongs) -> Vec<(&'a Statement, Code)> {
        let code = |(at, statement): (usize, &&'a Statement)| (*statement, self.of_statement(at, statement, wrong));
        self.body.iter().enumerate().map(code).collect()
    }

    fn of_statement(&self, at: usize, statement: &Statement, wrong: &mut Wrongs) -> Code {
        let mut line = Line { scope: self, at, statement, wrong };
        match &statement.kind {
            Kind::Store { l, p } => Code::Plain(Instruction::Store { l: line.location(l), p: line.operand(p) }),
            Kind::Load { r, l } => Code::Plain(Instruction::Load { r: line.register(r), l: line.location(l) }),
            Kind::FetchAdd { r, l, p } => {
                Code::Plain(Instruction::FetchAdd { r: line.register(r), l: line.location(l), p: line.operand(p) })
            }
            Kind::CompareSwap { r, l, e, v } => {
                let (e, v) = (line.operand(e), line.operand(v));
                Code::Plain(Instruction::CompareSwap { r: line.register(r), l: line.location(l), e, v })
            }
            Kind::Set { r, p } => Code::Plain(Instruction::Set { r: line.register(r), p: line.operand(p) }),
            Kind::Add { r, p } => Code::Plain(Instruction::Add { r: line.register(r), p: line.operand(p) }),
            Kind::If { r, test, p, to } => Code::If { condition: line.condition(r, *test, p), to: line.jump(to) },
            Kind::Goto(label) => Code::Goto(line.label(label)),
            Kind::Assert { r, test, p } => Code::Assert(line.condition(r, *test, p)),
            Kind::Fence => Code::Fence,
            Kind::Fail | Kind::Thread(_) | Kind::Alike(_) | Kind::Constant { .. } | Kind::Init { .. } | Kind::Label(_) => {
                Code::Fail
            }
        }
    }

    /// The labels, each with the statements behind it.
    pub fn labels(&self) -> Vec<(&'a str, &[&'a Statement])> {
        self.labels.iter().map(|(name, (at, _))| (*name, &self.body[*at..])).collect()
    }

    /// The labels that no jump goes to.
    pub fn unused_labels(&self) -> Vec<&'a Statement> {
        let goes = |name: &str| {
            self.body.iter().any(|s| match &s.kind {
                Kind::Goto(to) | Kind::If { to: Jump::Goto(to), .. } => to.text == name,
                _ => false,
            })
        };
        self.labels.iter().filter(|(name, _)| !goes(name)).map(|(_, (_, statement))| *statement).collect()
    }
}

/// One statement, whose words are given their meaning.
struct Line<'s, 'a> {
    scope: &'s Scope<'a>,
    at: usize,
    statement: &'s Statement,
    wrong: &'s mut Wrongs,
}

impl Line<'_, '_> {
    fn location(&self, word: &Word) -> u8 {
        words::location(&word.text).and_then(Result::ok).or(self.scope.symbols.locations.get(&word.text).copied()).unwrap_or(0)
    }

    /// A named register that this statement or one above gives a value.
    fn named(&self, name: &str) -> Option<u8> {
        let given = |s: &&Statement| s.kind.target().is_some_and(|target| target.text == name);
        let own = self.statement.kind.target().is_some_and(|target| target.text == name);
        let above = self.scope.body[..self.at].iter().any(given);
        self.scope.registers.get(name).copied().filter(|_| own || above)
    }

    fn register(&mut self, word: &Word) -> u8 {
        let name = word.text.as_str();
        match words::register(name) {
            Some(Ok(r)) => return r,
            Some(Err(message)) => self.wrong.add(self.statement, word, message),
            None => {
                let target = self.statement.kind.target() == Some(word);
                match self.named(name) {
                    Some(r) => return r,
                    None if target || self.wrong.may_be_said(name) => {}
                    None => {
                        let message = format!("a register (r0 to r3, or a name) is expected here, not {name}{}", self.hint(name));
                        self.wrong.add(self.statement, word, message);
                    }
                }
            }
        }
        0
    }

    fn operand(&mut self, word: &Word) -> Operand {
        let name = word.text.as_str();
        match (words::register(name), self.scope.symbols.value(name)) {
            (Some(Ok(r)), _) => return Operand::Register(r),
            (_, Some(Ok(value))) => return Operand::Constant(value),
            (Some(Err(message)), _) | (_, Some(Err(message))) => self.wrong.add(self.statement, word, message),
            _ => match self.named(name) {
                Some(r) => return Operand::Register(r),
                None if self.wrong.may_be_said(name) => {}
                None => {
                    let message = format!("a number or a register is expected here, not {name}{}", self.hint(name));
                    self.wrong.add(self.statement, word, message);
                }
            },
        }
        Operand::Constant(0)
    }

    fn condition(&mut self, r: &Word, test: Test, p: &Word) -> Condition {
        let (register, operand) = (self.register(r), self.operand(p));
        Condition::of(register, test, operand).unwrap_or_else(|| {
            let message = format!("{} is the least value: none is below it, and all are at least it", p.text);
            self.wrong.add(self.statement, p, message);
            Condition::FIRST
        })
    }

    /// What an unknown name may have been meant for.
    fn hint(&self, name: &str) -> String {
        let Scope { symbols, registers, .. } = self.scope;
        if symbols.locations.contains_key(name) {
            return format!("; {name} is a location: load it into a register first");
        }
        if registers.contains_key(name) {
            return format!("; {name} is given a value only below");
        }
        let known = registers.keys().chain(symbols.constants.keys()).map(String::as_str);
        hint(name, known)
    }

    fn jump(&mut self, to: &Jump) -> usize {
        let n = match to {
            Jump::Goto(label) => return self.label(label),
            Jump::Skip(n) => *n,
        };
        let left = self.scope.body.len() - self.at - 1;
        if n > left && self.wrong.all_read() {
            self.wrong.add_at(self.statement, format!("this skips {n} statements, and only {left} follow in its thread"));
        }
        self.at + 1 + n.min(left)
    }

    fn label(&mut self, word: &Word) -> usize {
        let name = word.text.as_str();
        match self.scope.labels.get(name) {
            Some((to, _)) if *to > self.at => return *to,
            Some((_, label)) => {
                let name = as_written(name);
                let message =
                    format!("{name} stands above, in line {}: jumps go forward only, programs have no loops", label.line);
                self.wrong.add(self.statement, word, message);
            }
            None if self.wrong.may_be_said(name) => {}
            None => {
                let hint = hint(name, self.scope.labels.keys().copied().filter(|label| !label.contains('#')));
                self.wrong.add(self.statement, word, format!("there is no label {name} in this thread{hint}"));
            }
        }
        self.at + 1
    }
}
