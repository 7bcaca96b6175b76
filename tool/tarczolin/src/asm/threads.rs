//! The threads of a text: where each begins, its code, and the limits that it keeps.
use super::fence;
use super::limits;
use super::line::as_written;
use super::resolve::Scope;
use super::statement::{Kind, Statement, Word};
use super::symbols::Symbols;
use super::translate::{instructions, Made};
use super::words;
use super::wrong::{Wrong, Wrongs};
use crate::model::Model;
use crate::program::{Frame, Names, ThreadNames, Written, FENCE, THREADS};
use std::collections::BTreeMap;

/// A thread: the statement that opens it, its instructions, its registers' names.
struct Thread<'a> {
    number: usize,
    opens: &'a Statement,
    made: Vec<Made<'a>>,
    registers: BTreeMap<String, u8>,
    unused_labels: Vec<&'a Statement>,
    /// The labels, each in front of an instruction, by its place.
    labels: Vec<(usize, String)>,
}

pub struct Threads<'a> {
    starts: Vec<(&'a Statement, u8, u32)>,
    threads: Vec<Thread<'a>>,
    alike: Vec<(&'a Statement, Vec<u8>)>,
}

/// The statements of each thread, behind the one that opens it.
fn split<'a>(statements: &'a [Statement], wrong: &mut Wrongs) -> Vec<(&'a Statement, Vec<&'a Statement>)> {
    let mut threads: Vec<(&Statement, Vec<&Statement>)> = Vec::new();
    let mut declared = false;
    for statement in statements {
        match &statement.kind {
            Kind::Constant { .. } => continue,
            Kind::Init { .. } if threads.is_empty() && !declared => continue,
            Kind::Init { .. } => wrong.add_at(statement, "init stands in front of the first thread".to_string()),
            Kind::Alike(_) => declared = true,
            _ if declared => {
                let message = "threads and instructions must stand in front of the first declaration of alike threads";
                wrong.add_at(statement, message.to_string());
            }
            Kind::Thread(_) if threads.len() == THREADS => {
                wrong.add_at(statement, format!("this is thread number {}; a program has at most {THREADS}", THREADS + 1));
                return threads;
            }
            Kind::Thread(_) => threads.push((statement, Vec::new())),
            _ => match threads.last_mut() {
                Some((_, code)) => code.push(statement),
                None => wrong.add_at(statement, "an instruction stands in front of the first thread".to_string()),
            },
        }
    }
    threads
}

impl<'a> Threads<'a> {
    /// The threads for one memory model, or for both: under sequential consistency alone fences are left out.
    pub fn of(statements: &'a [Statement], symbols: &'a Symbols, model: Option<Model>, wrong: &mut Wrongs) -> Threads<'a> {
        let mut threads = Vec::new();
        for (t, (opens, code)) in split(statements, wrong).into_iter().enumerate() {
            let scope = Scope::of(symbols, t, &code, wrong);
            let made = instructions(&scope.code(wrong), model != Some(Model::Sc));
            let unused_labels = scope.unused_labels();
            let labels = placed(scope.labels(), &made);
            threads.push(Thread { number: t, opens, made, registers: scope.registers, unused_labels, labels });
        }
        let mut made: Vec<&mut Vec<Made>> = threads.iter_mut().map(|thread| &mut thread.made).collect();
        fence::choose(&mut made, wrong);
        limits::tell(&made, model, wrong);
        let mut alike = Vec::new();
        for statement in statements {
            if let Kind::Alike(members) = &statement.kind {
                let numbers = members.iter().map(|word| member(symbols, statement, word, wrong)).collect();
                alike.push((statement, numbers));
            }
        }
        Threads { starts: starts(symbols, statements, wrong), threads, alike }
    }

    /// The frames of the program, in order.
    pub fn frames(&self) -> Vec<Frame> {
        let starts = self.starts.iter().map(|(_, l, value)| Frame::Start(*l, *value));
        let code = |thread: &Thread| thread.made.iter().map(|made| Frame::Instruction(made.instruction)).collect::<Vec<_>>();
        let threads = self.threads.iter().flat_map(|thread| [vec![Frame::Thread], code(thread)].concat());
        starts.chain(threads).chain(self.alike.iter().map(|(_, members)| Frame::Alike(members.clone()))).collect()
    }

    /// The statement of each frame.
    fn statements(&self) -> impl Iterator<Item = &'a Statement> + '_ {
        let code = |thread: &Thread<'a>| thread.made.iter().map(|made| made.statement).collect::<Vec<_>>();
        let threads = self.threads.iter().flat_map(move |thread| [vec![thread.opens], code(thread)].concat());
        let starts = self.starts.iter().map(|(statement, ..)| *statement);
        starts.chain(threads).chain(self.alike.iter().map(|(statement, _)| *statement))
    }

    /// The place in the text of a line of the program file, from 1.
    pub fn place(&self, line: u64) -> (usize, usize) {
        let statement = self.statements().nth((line as usize).wrapping_sub(1));
        statement.map_or((1, 1), |statement| (statement.line, statement.column))
    }

    /// The line of the text that each frame comes from.
    pub fn lines(&self) -> Vec<usize> {
        self.statements().map(|statement| statement.line).collect()
    }

    pub fn names(&self, symbols: &Symbols) -> Names {
        let mut names = Names { constants: symbols.constants.clone(), ..Names::default() };
        for (name, l) in &symbols.locations {
            names.locations[*l as usize] = Some(name.clone());
        }
        names.threads = self.threads.iter().map(Thread::names).collect();
        for (name, t) in &symbols.threads {
            if let Some(thread) = names.threads.get_mut(*t as usize) {
                thread.name = Some(name.clone());
            }
        }
        names
    }

    pub fn unused_labels(&self) -> impl Iterator<Item = Wrong> + '_ {
        self.threads.iter().flat_map(|thread| &thread.unused_labels).map(|statement| {
            let message = format!("no jump goes to {}", statement.text.trim_end_matches(':'));
            Wrong { line: statement.line, column: statement.column, message }
        })
    }
}

impl Thread<'_> {
    fn names(&self) -> ThreadNames {
        let name = match &self.opens.kind {
            Kind::Thread(Some(name)) if !words::is_default(&name.text, self.number) => Some(name.text.clone()),
            _ => None,
        };
        let mut registers = [const { None }; 4];
        for (name, r) in &self.registers {
            registers[*r as usize] = Some(name.clone());
        }
        let several = |made: &Made| self.made.iter().filter(|other| std::ptr::eq(other.statement, made.statement)).count() > 1;
        let statement = |made: &Made| match made.is_fence() {
            true => Some(FENCE.to_string()),
            false => several(made).then(|| made.statement.text.clone()),
        };
        let written = |made: &Made| Written { line: made.statement.line, text: made.statement.text.clone() };
        ThreadNames {
            name,
            registers,
            statements: self.made.iter().map(statement).collect(),
            written: self.made.iter().map(written).collect(),
            labels: self.labels.clone(),
        }
    }
}

/// Where labels stand among the instructions: each in front of the first one of the statements behind it.
fn placed(labels: Vec<(&str, &[&Statement])>, made: &[Made]) -> Vec<(usize, String)> {
    let place = |behind: &[&Statement]| {
        let first = |one: &&Statement| made.iter().position(|made| std::ptr::eq(made.statement, *one));
        behind.iter().find_map(first).unwrap_or(made.len())
    };
    let mut all: Vec<(usize, String)> =
        labels.into_iter().map(|(name, behind)| (place(behind), as_written(name).to_string())).collect();
    all.sort();
    all
}

/// What the init lines say, each for another location.
fn starts<'a>(symbols: &Symbols, statements: &'a [Statement], wrong: &mut Wrongs) -> Vec<(&'a Statement, u8, u32)> {
    let mut starts: Vec<(&Statement, u8, u32)> = Vec::new();
    for statement in statements {
        let Kind::Init { l, value } = &statement.kind else { continue };
        let named = || symbols.locations.get(&l.text).copied();
        let Some(number) = words::location(&l.text).map_or_else(named, Result::ok) else { continue };
        if let Some((above, ..)) = starts.iter().find(|(_, other, _)| *other == number) {
            wrong.add(statement, l, format!("{} has a starting value already, in line {}", l.text, above.line));
        }
        match symbols.value(&value.text) {
            Some(Ok(v)) => starts.push((statement, number, v)),
            Some(Err(message)) => wrong.add(statement, value, message),
            None => wrong.add(statement, value, format!("a number is expected here, not {}", value.text)),
        }
    }
    starts
}

/// The number of a thread that an alike line names.
fn member(symbols: &Symbols, statement: &Statement, word: &Word, wrong: &mut Wrongs) -> u8 {
    let number = symbols.threads.get(&word.text).copied().or_else(|| words::thread(&word.text));
    if number.is_none() {
        wrong.add(statement, word, format!("a thread number or a thread's name is expected here, not {}", word.text));
    }
    number.unwrap_or(0)
}
