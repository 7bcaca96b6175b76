//! The machine's state as the walk over all schedules has it.
use crate::oracle::decode::{Instruction, Program};
use crate::oracle::machine::{opened, Event, Thread, INITIAL};

/// The source of an access that does not read.
pub const NONE: Event = Event { t: 0xfe, i: 0xfe };

/// The access that a thread does next: where, whether it reads, and whether it writes if it is done now.
#[derive(Clone, Copy)]
pub struct Pending {
    pub location: u8,
    pub reads: bool,
    pub writes: bool,
}

pub struct State {
    pub threads: [Thread; 6],
    pub memory: [u32; 8],
    /// The last write of each location.
    pub last: [Event; 8],
}

impl State {
    pub fn new(program: &Program) -> State {
        let mut threads = [Thread::default(); 6];
        for (thread, code) in threads.iter_mut().zip(&program.threads) {
            *thread = opened(code);
        }
        State { threads, memory: program.memory, last: [INITIAL; 8] }
    }

    pub fn pending(&self, program: &Program, t: usize) -> Option<Pending> {
        let (thread, code) = (&self.threads[t], program.threads.get(t)?);
        if thread.ended(code) {
            return None;
        }
        Some(match code[thread.next] {
            Instruction::Store { l, .. } => Pending { location: l, reads: false, writes: true },
            Instruction::Load { l, .. } => Pending { location: l, reads: true, writes: false },
            Instruction::CompareSwap { l, e, .. } => {
                Pending { location: l, reads: true, writes: self.memory[l as usize] == thread.value(e) }
            }
            Instruction::FetchAdd { l, p, .. } => Pending { location: l, reads: true, writes: thread.value(p) != 0 },
            _ => unreachable!("no access"),
        })
    }

    pub fn source(&self, access: Pending) -> Event {
        if access.reads {
            self.last[access.location as usize]
        } else {
            NONE
        }
    }

    /// The step of a thread that has not ended.
    pub fn step(&mut self, program: &Program, t: usize, access: Pending) {
        let l = access.location as usize;
        let event = Event { t: t as u8, i: self.threads[t].accesses };
        let effect = self.threads[t].access(&program.threads[t], self.memory[l]);
        if let Some(value) = effect.written {
            self.memory[l] = value;
            self.last[l] = event;
        }
    }
}
