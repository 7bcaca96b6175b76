//! Names that the text form gives to locations, threads and registers, and how things are called by them.
use super::instruction::{number, Comparison, Instruction, Operand};
use super::limits::{LOCATIONS, REGISTERS};
use std::collections::BTreeMap;
use Instruction::*;

/// The statement of an instruction that is a fence.
pub const FENCE: &str = "fence";

/// What the locations are called, by their numbers, where they have names.
pub type Called = [Option<String>; LOCATIONS as usize];

/// Names, where there are any: `x3`, `T1` and `r0` stand in place of those that are missing.
#[derive(Clone, Debug, Default, PartialEq, Eq)]
pub struct Names {
    pub locations: Called,
    pub threads: Vec<ThreadNames>,
    /// What the constants of a text are.
    pub constants: BTreeMap<String, u32>,
}

/// The names of one thread.
#[derive(Clone, Debug, Default, PartialEq, Eq)]
pub struct ThreadNames {
    pub name: Option<String>,
    pub registers: [Option<String>; REGISTERS as usize],
    /// For each instruction the statement that it was made of, where that is another one.
    pub statements: Vec<Option<String>>,
    /// For each instruction of a text the statement as it is written.
    pub written: Vec<Written>,
    /// The labels of a text, each in front of an instruction, by its place, or behind the last one.
    pub labels: Vec<(usize, String)>,
}

/// A statement of a text as it is written, and its line, from 1.
#[derive(Clone, Debug, PartialEq, Eq)]
pub struct Written {
    pub line: usize,
    pub text: String,
}

impl std::fmt::Display for Written {
    fn fmt(&self, f: &mut std::fmt::Formatter) -> std::fmt::Result {
        write!(f, "{} | {}", self.line, self.text)
    }
}

impl Names {
    pub fn location(&self, l: u8) -> String {
        self.locations[l as usize].clone().unwrap_or_else(|| format!("x{l}"))
    }

    pub fn thread(&self, t: u8) -> String {
        let name = self.threads.get(t as usize).and_then(|thread| thread.name.clone());
        name.unwrap_or_else(|| format!("T{t}"))
    }

    pub fn register(&self, t: u8, r: u8) -> String {
        let name = self.threads.get(t as usize).and_then(|thread| thread.registers[r as usize].clone());
        name.unwrap_or_else(|| format!("r{r}"))
    }

    pub fn operand(&self, t: u8, p: Operand) -> String {
        match p {
            Operand::Constant(value) => number(value),
            Operand::Register(r) => self.register(t, r),
        }
    }

    /// An operand as a comparison reads it.
    pub fn compared(&self, t: u8, test: Comparison, p: Operand) -> String {
        match p {
            Operand::Constant(value) => test.number(value),
            Operand::Register(r) => self.register(t, r),
        }
    }

    /// The statement that a thread's instruction was made of, where that is another one.
    pub fn statement(&self, t: u8, at: usize) -> Option<&str> {
        self.threads.get(t as usize)?.statements.get(at)?.as_deref()
    }

    /// The statement of a text that a thread's instruction was made of, as it is written.
    pub fn written(&self, t: u8, at: usize) -> Option<&Written> {
        self.threads.get(t as usize)?.written.get(at)
    }

    /// Is a thread's instruction a fence? Then its register holds nothing that the program means, and its location is any.
    pub fn is_fence(&self, t: u8, at: usize) -> bool {
        self.statement(t, at) == Some(FENCE)
    }

    /// The names of a thread; none yet of a thread that is new.
    pub fn of_thread(&mut self, t: u8) -> &mut ThreadNames {
        if self.threads.len() <= t as usize {
            self.threads.resize_with(t as usize + 1, ThreadNames::default);
        }
        &mut self.threads[t as usize]
    }

    /// The fences of all threads: each by its thread and its place among the instructions.
    pub fn fences(&self) -> impl Iterator<Item = (u8, usize)> + '_ {
        let places = |t: u8| self.threads[t as usize].statements.len();
        let all = (0..self.threads.len() as u8).flat_map(move |t| (0..places(t)).map(move |at| (t, at)));
        all.filter(|(t, at)| self.is_fence(*t, *at))
    }

    /// A thread's instruction at a place in the text form, where a fence is one.
    pub fn statement_at(&self, t: u8, at: usize, instruction: &Instruction) -> String {
        match self.is_fence(t, at) {
            true => FENCE.to_string(),
            false => self.instruction(t, instruction),
        }
    }

    /// An instruction of a thread in the text form.
    pub fn instruction(&self, t: u8, instruction: &Instruction) -> String {
        let (register, operand) = (|r| self.register(t, r), |p| self.operand(t, p));
        let location = |l| self.location(l);
        match *instruction {
            Store { l, p } => format!("store {} {}", location(l), operand(p)),
            Load { r, l } => format!("{} = load {}", register(r), location(l)),
            FetchAdd { r, l, p } => format!("{} = fetch_add {} {}", register(r), location(l), operand(p)),
            CompareSwap { r, l, e, v } => format!("{} = cas {} {} {}", register(r), location(l), operand(e), operand(v)),
            Set { r, p } => format!("{} = {}", register(r), operand(p)),
            Add { r, p } => format!("{} += {}", register(r), operand(p)),
            SkipUnless { test, r, p, n } => {
                format!("if {} {} {} skip {n}", register(r), test.signs().1, self.compared(t, test, p))
            }
            Assert { test, r, p } => format!("assert {} {} {}", register(r), test.signs().0, self.compared(t, test, p)),
        }
    }
}
