//! Programs as the tool reads them: for what it shows beside the library's answers, and for the text form.
mod frame;
mod instruction;
mod limits;
mod names;
mod used;

use crate::model::Model;
use std::collections::BTreeSet;

pub use frame::Frame;
pub use instruction::{number, Comparison, Instruction, Operand};
pub use limits::*;
pub use names::{Called, Names, ThreadNames, Written, FENCE};
pub use used::Used;

/// The code of each thread, the threads that each `02` line declares alike, what each `03` line lets a location start with, and the names
/// of the text form.
#[derive(Clone, Debug, Default, PartialEq, Eq)]
pub struct Program {
    pub threads: Vec<Vec<Instruction>>,
    pub alike: Vec<Vec<u8>>,
    pub starts: Vec<(u8, u32)>,
    pub names: Names,
    /// The memory model under which it is run.
    pub model: Model,
}

impl Program {
    /// The program of a file that the library accepts.
    pub fn of_accepted(file: &[u8]) -> Program {
        let mut program = Program::default();
        for frame in frames(file).expect("an accepted file has frames only") {
            match frame {
                Frame::Thread => program.threads.push(Vec::new()),
                Frame::Instruction(i) => program.threads.last_mut().expect("behind a thread").push(i),
                Frame::Alike(members) => program.alike.push(members),
                Frame::Start(l, value) => program.starts.push((l, value)),
            }
        }
        program
    }

    /// The same with names.
    pub fn named(self, names: &Names) -> Program {
        Program { names: names.clone(), ..self }
    }

    /// The same under another memory model.
    pub fn under(self, model: Model) -> Program {
        Program { model, ..self }
    }

    /// The threads' numbers.
    pub fn numbers(&self) -> std::ops::Range<u8> {
        0..self.threads.len() as u8
    }

    /// The values that memory starts with: those of the `03` lines, else 0.
    pub fn memory(&self) -> [u32; 8] {
        let mut memory = [0; 8];
        self.starts.iter().for_each(|(l, value)| memory[*l as usize] = *value);
        memory
    }

    /// What memory starts with, for the eye.
    pub fn initial(&self) -> String {
        if self.starts.is_empty() {
            return "every location is 0".to_string();
        }
        let said = |(l, value): &(u8, u32)| format!("{} is {}", self.names.location(*l), number(*value));
        let all = self.starts.iter().map(said).collect::<Vec<_>>().join(", ");
        let others = self.locations().len() > self.starts.len();
        if others {
            return format!("{all}, all else is 0");
        }
        all
    }

    /// The locations that its code or a `03` line names, ascending; where a fence reads is no matter of the program.
    pub fn locations(&self) -> BTreeSet<u8> {
        let started = self.starts.iter().map(|(l, _)| *l);
        self.numbers().flat_map(|t| self.meant(t)).filter_map(Instruction::location).chain(started).collect()
    }

    /// How much it uses of what there is.
    pub fn used(&self) -> Used {
        let longest = self.threads.iter().map(Vec::len).max();
        let accesses = self.threads.iter().flatten().filter(|instruction| instruction.access().is_some());
        let registers = self.numbers().map(|t| self.registers(t).len()).max();
        Used {
            threads: self.threads.len(),
            instructions: longest.unwrap_or(0),
            accesses: accesses.count(),
            locations: self.locations().len(),
            registers: registers.unwrap_or(0),
        }
    }

    /// The registers that a thread's code names, ascending; what a fence changes is no matter of the program.
    pub fn registers(&self, t: u8) -> BTreeSet<u8> {
        self.meant(t).flat_map(Instruction::registers).collect()
    }

    /// The instructions of a thread that are no fences.
    fn meant(&self, t: u8) -> impl Iterator<Item = &Instruction> + '_ {
        let code = self.threads[t as usize].iter().enumerate();
        code.filter(move |(at, _)| !self.names.is_fence(t, *at)).map(|(_, instruction)| instruction)
    }
}

/// The frames of a file, or none where a line that is no remark holds no frame.
pub fn frames(file: &[u8]) -> Option<Vec<Frame>> {
    if file.is_empty() {
        return Some(Vec::new());
    }
    let lines = file.strip_suffix(b"\n")?.split(|&c| c == b'\n').filter(|line| !line.starts_with(b"#"));
    lines.map(|line| Frame::of_bytes(&crate::hex::bytes(line)?)).collect()
}

/// The file without its `02` lines: each thread is alike to itself only.
pub fn apart(file: &[u8]) -> Vec<u8> {
    let mut frames = frames(file).expect("an accepted file has frames only");
    frames.retain(|frame| !matches!(frame, Frame::Alike(_)));
    self::file(&frames)
}

/// The program file of these frames.
pub fn file(frames: &[Frame]) -> Vec<u8> {
    frames.iter().flat_map(|frame| crate::hex::line(&frame.bytes()).into_bytes()).collect()
}
