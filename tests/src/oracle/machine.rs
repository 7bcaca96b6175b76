//! Steps and schedules: the machine under sequential consistency, by the words of document 01.
use super::decode::{Instruction, Operand, Program};
use super::{refused, Refusal};

/// An event: thread t's access number i among those it did, from 0.
#[derive(Clone, Copy, Debug, PartialEq, Eq, PartialOrd, Ord, Hash)]
pub struct Event {
    pub t: u8,
    pub i: u8,
}

/// The write that stands for the initial value of every location.
pub const INITIAL: Event = Event { t: 0xff, i: 0xff };

/// A thread: registers, the place of its next instruction, whether an assertion failed, and how many accesses it did.
#[derive(Clone, Copy, Debug, Default, PartialEq, Eq, Hash)]
pub struct Thread {
    pub registers: [u32; 4],
    pub next: usize,
    pub failed: bool,
    pub accesses: u8,
}

/// What an access did: where, the value that it found if it reads, the value that it left if it writes.
#[derive(Clone, Copy, Debug, PartialEq, Eq)]
pub struct Effect {
    pub location: u8,
    pub read: Option<u32>,
    pub written: Option<u32>,
}

impl Thread {
    pub fn value(&self, operand: Operand) -> u32 {
        match operand {
            Operand::Constant(value) => value,
            Operand::Register(r) => self.registers[r as usize],
        }
    }

    /// Is the register at most the operand, both read as two's complement?
    fn at_most(&self, r: u8, p: Operand) -> bool {
        self.registers[r as usize] as i32 <= self.value(p) as i32
    }

    pub fn ended(&self, code: &[Instruction]) -> bool {
        self.failed || self.next >= code.len()
    }

    /// How many instructions are left of it; none of a failed one.
    pub fn left(&self, code: &[Instruction]) -> usize {
        if self.ended(code) {
            0
        } else {
            code.len() - self.next
        }
    }

    /// Carries out the instructions up to the next access.
    pub fn settle(&mut self, code: &[Instruction]) {
        while !self.ended(code) && !code[self.next].is_access() {
            let instruction = code[self.next];
            self.next += 1;
            match instruction {
                Instruction::Set { r, p } => self.registers[r as usize] = self.value(p),
                Instruction::Add { r, p } => {
                    self.registers[r as usize] = self.registers[r as usize].wrapping_add(self.value(p));
                }
                Instruction::SkipUnless { r, p, n } => {
                    if self.registers[r as usize] != self.value(p) {
                        self.next += n as usize;
                    }
                }
                Instruction::Assert { r, p } => self.failed = self.registers[r as usize] != self.value(p),
                Instruction::SkipUnlessAtMost { r, p, n } => {
                    if !self.at_most(r, p) {
                        self.next += n as usize;
                    }
                }
                Instruction::AssertAtMost { r, p } => self.failed = !self.at_most(r, p),
                _ => unreachable!("an access"),
            }
        }
    }

    /// The location of the next access of a settled thread that has not ended.
    pub fn location(&self, code: &[Instruction]) -> u8 {
        match code[self.next] {
            Instruction::Store { l, .. }
            | Instruction::Load { l, .. }
            | Instruction::FetchAdd { l, .. }
            | Instruction::CompareSwap { l, .. } => l,
            _ => unreachable!("no access"),
        }
    }

    /// Does the next access, finding this value, and the instructions behind it up to the next access.
    pub fn access(&mut self, code: &[Instruction], found: u32) -> Effect {
        let instruction = code[self.next];
        // operands are read before r changes
        let (read, written) = match instruction {
            Instruction::Store { p, .. } => (None, Some(self.value(p))),
            Instruction::Load { r, .. } => (Some(r), None),
            // adding zero is reading
            Instruction::FetchAdd { r, p, .. } => (Some(r), (self.value(p) != 0).then_some(found.wrapping_add(self.value(p)))),
            Instruction::CompareSwap { r, e, v, .. } => (Some(r), (found == self.value(e)).then_some(self.value(v))),
            _ => unreachable!("no access"),
        };
        let location = self.location(code);
        if let Some(r) = read {
            self.registers[r as usize] = found;
        }
        self.next += 1;
        self.accesses += 1;
        self.settle(code);
        Effect { location, read: read.map(|_| found), written }
    }

    /// Does the next access read? A settled thread that has not ended.
    pub fn reads(&self, code: &[Instruction]) -> bool {
        !matches!(code[self.next], Instruction::Store { .. })
    }
}

/// The thread before the first step.
pub fn opened(code: &[Instruction]) -> Thread {
    let mut thread = Thread::default();
    thread.settle(code);
    thread
}

/// The whole machine: threads, memory, and what the steps did.
#[derive(Clone, Debug)]
pub struct Machine<'a> {
    pub program: &'a Program,
    pub threads: Vec<Thread>,
    pub memory: [u32; 8],
    /// The steps so far: each event with its effect.
    pub done: Vec<(Event, Effect)>,
}

impl<'a> Machine<'a> {
    pub fn new(program: &'a Program) -> Machine<'a> {
        let threads = program.threads.iter().map(|code| opened(code)).collect();
        Machine { program, threads, memory: program.memory, done: Vec::new() }
    }

    /// May this byte be the next step: does it name a thread that has not ended?
    pub fn may(&self, t: u8) -> bool {
        let t = t as usize;
        t < self.threads.len() && !self.threads[t].ended(&self.program.threads[t])
    }

    /// The step of a thread that has not ended.
    pub fn step(&mut self, t: u8) {
        let code = &self.program.threads[t as usize];
        let thread = &mut self.threads[t as usize];
        let event = Event { t, i: thread.accesses };
        let location = thread.location(code) as usize;
        let effect = thread.access(code, self.memory[location]);
        if let Some(value) = effect.written {
            self.memory[location] = value;
        }
        self.done.push((event, effect));
    }

    /// Have all threads ended?
    pub fn full(&self) -> bool {
        (0..self.threads.len()).all(|t| !self.may(t as u8))
    }

    /// Has some assertion failed?
    pub fn fails(&self) -> bool {
        self.threads.iter().any(|thread| thread.failed)
    }
}

/// Runs a schedule to its end: refusal 20 at the first byte that may be no step.
pub fn run<'a>(program: &'a Program, schedule: &[u8]) -> Result<Machine<'a>, Refusal> {
    let mut machine = Machine::new(program);
    for (k, &t) in schedule.iter().enumerate() {
        if !machine.may(t) {
            return refused(20, k);
        }
        machine.step(t);
    }
    Ok(machine)
}

/// Runs a full schedule: refusal 20, then 21 where it is not full.
pub fn run_full<'a>(program: &'a Program, schedule: &[u8]) -> Result<Machine<'a>, Refusal> {
    let machine = run(program, schedule)?;
    if machine.full() {
        Ok(machine)
    } else {
        refused(21, schedule.len())
    }
}

/// Hands every full schedule, ascending, with its machine to `each`, until that says to stop. Says whether it was stopped.
pub fn every_full(machine: &Machine, schedule: &mut Vec<u8>, each: &mut dyn FnMut(&[u8], &Machine) -> bool) -> bool {
    if machine.full() {
        return each(schedule, machine);
    }
    for t in 0..machine.threads.len() as u8 {
        if machine.may(t) {
            let mut next = machine.clone();
            next.step(t);
            schedule.push(t);
            let stopped = every_full(&next, schedule, each);
            schedule.pop();
            if stopped {
                return true;
            }
        }
    }
    false
}
