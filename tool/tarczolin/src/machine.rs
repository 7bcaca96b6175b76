//! A run replayed step by step, for the values that are shown. Nothing here is proved; the schedules themselves, their order,
//! their counts and whether they fail are the library's.
use crate::graph::Event;
use crate::model::{thread, Model, MOVE};
use crate::program::{Comparison, Instruction, Operand, Program};
use std::collections::VecDeque;
use Instruction::*;

/// An assertion that failed: its place in the thread's code, how it compares, the value of its register, and the operand's.
#[derive(Clone, Copy, Debug, PartialEq, Eq, PartialOrd, Ord)]
pub struct Failure {
    pub at: usize,
    pub test: Comparison,
    pub r: u8,
    pub asserted: Operand,
    pub value: u32,
    pub wanted: u32,
}

/// How a step stands to its thread's queue of pending stores.
#[derive(Clone, Copy, Debug, PartialEq, Eq)]
pub enum Queue {
    /// It acts on memory, or reads a pending store.
    Aside,
    /// A store goes into the queue.
    In,
    /// The oldest store in the queue reaches memory.
    Out,
}

/// A step that was done: the access, with the values of its operands.
#[derive(Clone, Copy, Debug, PartialEq, Eq)]
pub struct Done {
    pub event: Event,
    /// Its place in the thread's code.
    pub at: usize,
    pub instruction: Instruction,
    pub location: u8,
    /// The value that it found, if it reads, and the value that it left, if it writes.
    pub found: Option<u32>,
    pub left: Option<u32>,
    /// The operands' values: what is stored, added, or expected and put.
    pub operands: [u32; 2],
    /// The assertion behind it that failed.
    pub failure: Option<Failure>,
    pub queue: Queue,
    /// It is a fence: what it reads and where is no matter of the program.
    pub fence: bool,
}

#[derive(Clone, Copy, Default)]
struct Thread {
    registers: [u32; 4],
    next: usize,
    accesses: u8,
    failure: Option<Failure>,
}

impl Thread {
    fn value(&self, p: Operand) -> u32 {
        match p {
            Operand::Constant(value) => value,
            Operand::Register(r) => self.registers[r as usize],
        }
    }

    fn ended(&self, code: &[Instruction]) -> bool {
        self.failure.is_some() || self.next >= code.len()
    }

    /// Carries out the instructions up to the next access.
    fn settle(&mut self, code: &[Instruction]) {
        while !self.ended(code) {
            match code[self.next] {
                Set { r, p } => self.registers[r as usize] = self.value(p),
                Add { r, p } => self.registers[r as usize] = self.registers[r as usize].wrapping_add(self.value(p)),
                SkipUnless { test, r, p, n } if !test.holds(self.registers[r as usize], self.value(p)) => self.next += n as usize,
                SkipUnless { .. } => {}
                Assert { test, r, p } => {
                    let (value, wanted) = (self.registers[r as usize], self.value(p));
                    let failure = Failure { at: self.next, test, r, asserted: p, value, wanted };
                    self.failure = (!test.holds(value, wanted)).then_some(failure);
                }
                _ => return,
            }
            self.next += 1;
        }
    }

    /// Does the next access, which finds what its location looks like, and the instructions behind it.
    /// A fence leaves its register as it is: nothing of the program can tell what the library puts there.
    fn access(&mut self, t: u8, code: &[Instruction], fence: bool, look: impl FnOnce(u8) -> u32) -> Done {
        let (at, instruction) = (self.next, code[self.next]);
        let event = Event { t, i: self.accesses };
        // operands are read before a register changes
        let (l, r, operands) = match instruction {
            Store { l, p } => (l, None, [self.value(p), 0]),
            Load { r, l } => (l, Some(r), [0, 0]),
            FetchAdd { r, l, p } => (l, Some(r), [self.value(p), 0]),
            CompareSwap { r, l, e, v } => (l, Some(r), [self.value(e), self.value(v)]),
            _ => unreachable!("a settled thread stands at an access"),
        };
        let old = look(l);
        let left = match instruction {
            Store { .. } => Some(operands[0]),
            FetchAdd { .. } => (operands[0] != 0).then_some(old.wrapping_add(operands[0])),
            CompareSwap { .. } => (old == operands[0]).then_some(operands[1]),
            _ => None,
        };
        if let Some(r) = r.filter(|_| !fence) {
            self.registers[r as usize] = old;
        }
        self.accesses += 1;
        self.next += 1;
        self.settle(code);
        Done {
            event,
            at,
            instruction,
            location: l,
            found: r.map(|_| old),
            left,
            operands,
            failure: self.failure,
            queue: Queue::Aside,
            fence,
        }
    }
}

/// A fetch and add or a compare and swap: under total store order it needs an empty queue.
fn is_locked(instruction: &Instruction) -> bool {
    matches!(instruction, FetchAdd { .. } | CompareSwap { .. })
}

/// Threads, memory, and each thread's pending stores, oldest first; under sequential consistency none is ever pending.
#[derive(Clone)]
pub struct Machine<'a> {
    program: &'a Program,
    threads: [Thread; 6],
    memory: [u32; 8],
    queues: [VecDeque<Done>; 6],
}

impl<'a> Machine<'a> {
    /// Before the first step, each thread settled.
    pub fn new(program: &'a Program) -> Machine<'a> {
        let mut threads = [Thread::default(); 6];
        for (thread, code) in threads.iter_mut().zip(&program.threads) {
            thread.settle(code);
        }
        Machine { program, threads, memory: program.memory(), queues: Default::default() }
    }

    /// The bytes that may be the next step, ascending: threads that have not ended, and queues that are not empty.
    pub fn going(&self) -> impl DoubleEndedIterator<Item = u8> + '_ {
        let moves = self.program.numbers().map(|t| MOVE + t);
        self.program.numbers().chain(moves).filter(|byte| self.may(*byte))
    }

    /// May this byte be the next step: does it name a thread that has not ended, whose queue is empty where its next access needs that,
    /// or a queue that is not empty?
    pub fn may(&self, byte: u8) -> bool {
        if byte >= MOVE {
            return self.queues.get((byte - MOVE) as usize).is_some_and(|queue| !queue.is_empty());
        }
        self.next(byte).is_some_and(|(_, instruction)| !self.pends(byte) || !is_locked(&instruction))
    }

    /// Has a thread pending stores?
    pub fn pends(&self, t: u8) -> bool {
        !self.queues[t as usize].is_empty()
    }

    /// The step of a byte that may be the next.
    pub fn step(&mut self, byte: u8) -> Done {
        let t = thread(byte);
        let (memory, queue) = (&mut self.memory, &mut self.queues[t as usize]);
        if byte >= MOVE {
            let done = queue.pop_front().expect("the queue is not empty");
            memory[done.location as usize] = done.left.expect("a store leaves a value");
            return Done { queue: Queue::Out, failure: None, ..done };
        }
        let newest = |l: u8| queue.iter().rev().find(|pending| pending.location == l).and_then(|pending| pending.left);
        let look = |l: u8| newest(l).unwrap_or(memory[l as usize]);
        let (thread, code) = (&mut self.threads[t as usize], &self.program.threads[t as usize]);
        let fence = self.program.names.is_fence(t, thread.next);
        let mut done = thread.access(t, code, fence, look);
        match (self.program.model, done.instruction, done.left) {
            (Model::Tso, Store { .. }, _) => {
                done.queue = Queue::In;
                queue.push_back(done);
            }
            (_, _, Some(left)) => memory[done.location as usize] = left,
            _ => {}
        }
        done
    }

    /// The next access of a thread that has not ended.
    pub fn next(&self, t: u8) -> Option<(Event, Instruction)> {
        let code = self.program.threads.get(t as usize)?;
        let thread = &self.threads[t as usize];
        (!thread.ended(code)).then(|| (Event { t, i: thread.accesses }, code[thread.next]))
    }

    /// The step of a thread that has not ended, whose read finds this value whatever memory holds.
    pub fn step_with(&mut self, t: u8, found: u32) -> Done {
        let location = self.next(t).and_then(|(_, instruction)| instruction.location());
        self.memory[location.unwrap_or(0) as usize] = found;
        self.step(t)
    }

    /// The assertion of a thread that has failed so far.
    pub fn failure(&self, t: u8) -> Option<Failure> {
        self.threads[t as usize].failure
    }

    /// The values of the locations, and of each thread's registers.
    pub fn values(&self) -> ([u32; 8], Vec<[u32; 4]>) {
        (self.memory, self.threads[..self.program.threads.len()].iter().map(|thread| thread.registers).collect())
    }

    /// Where each thread stands in its code.
    pub fn places(&self) -> Vec<u8> {
        self.threads[..self.program.threads.len()].iter().map(|thread| thread.next as u8).collect()
    }

    /// Has some assertion failed?
    pub fn fails(&self) -> bool {
        self.threads.iter().any(|thread| thread.failure.is_some())
    }
}
