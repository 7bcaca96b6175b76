//! Where the search stands: the machine behind a prefix, and what the rules carry from step to step.
use crate::oracle::decode::{Instruction, Operand, Program};
use crate::oracle::machine::{opened, Thread};

/// The word of a thread that can have no twin any more, and the least that has no room for a read.
pub(super) const LONE: u64 = 1 << 60;
const FULL: u64 = 1 << 55;

/// A thread's next access: where, and whether it writes if it is done now.
#[derive(Clone, Copy)]
pub struct Access {
    pub location: u8,
    pub writes: bool,
}

impl Access {
    fn conflicts(self, other: Access) -> bool {
        self.location == other.location && (self.writes || other.writes)
    }
}

/// What a step changes, as it was before.
pub struct Changed {
    thread: Thread,
    value: u32,
    stamp: u8,
    word: u64,
    running: u8,
    late: u8,
    location: u8,
}

#[derive(Clone, Copy)]
pub struct Place {
    pub threads: [Thread; 6],
    pub(super) memory: [u32; 8],
    /// For each location the number of the step that wrote it last, from 1, or 0.
    pub(super) stamps: [u8; 8],
    /// For each thread a word that tells its reads, a digit each: one more than the number of the step that wrote what it read.
    pub(super) words: [u64; 6],
    /// The threads that have not ended, and those whose next step would come late, as bits.
    pub running: u8,
    pub late: u8,
}

impl Place {
    pub fn new(program: &Program) -> Place {
        let mut place =
            Place { threads: [Thread::default(); 6], memory: program.memory, stamps: [0; 8], words: [0; 6], running: 0, late: 0 };
        for (t, code) in program.threads.iter().enumerate() {
            place.threads[t] = opened(code);
            place.running |= (!place.threads[t].ended(code) as u8) << t;
        }
        place
    }

    pub fn fails(&self) -> bool {
        self.threads.iter().any(|thread| thread.failed)
    }

    /// The access of a thread that has not ended.
    pub fn access(&self, program: &Program, t: usize) -> Access {
        match program.threads[t][self.threads[t].next] {
            Instruction::Store { l, .. } => Access { location: l, writes: true },
            Instruction::FetchAdd { l, p, .. } => Access { location: l, writes: self.threads[t].value(p) != 0 },
            Instruction::Load { l, .. } => Access { location: l, writes: false },
            Instruction::CompareSwap { l, e, .. } => {
                Access { location: l, writes: self.memory[l as usize] == self.threads[t].value(e) }
            }
            _ => unreachable!("no access"),
        }
    }

    /// The place behind step number `number`, from 1, of a thread that has not ended.
    pub fn step(&self, program: &Program, t: usize, number: u8) -> Place {
        let mut next = *self;
        next.advance(program, t, number);
        next
    }

    /// Makes step number `number`, from 1, of a thread that has not ended, and gives what the step changed.
    pub fn advance(&mut self, program: &Program, t: usize, number: u8) -> Changed {
        let access = self.access(program, t);
        let l = access.location as usize;
        let before = Changed {
            thread: self.threads[t],
            value: self.memory[l],
            stamp: self.stamps[l],
            word: self.words[t],
            running: self.running,
            late: self.late,
            location: access.location,
        };
        let effect = self.threads[t].access(&program.threads[t], before.value);
        if let Some(value) = effect.written {
            self.memory[l] = value;
            self.stamps[l] = number;
            self.words[t] = LONE + t as u64;
        } else {
            self.words[t] = if before.word < FULL { before.word * 32 + before.stamp as u64 + 1 } else { LONE + t as u64 };
        }
        if self.threads[t].ended(&program.threads[t]) {
            self.running &= !(1 << t);
        }
        self.late = self.late_behind(program, t, access);
        before
    }

    /// Takes a step of a thread back.
    pub fn take_back(&mut self, t: usize, before: Changed) {
        let l = before.location as usize;
        self.threads[t] = before.thread;
        (self.memory[l], self.stamps[l], self.words[t]) = (before.value, before.stamp, before.word);
        (self.running, self.late) = (before.running, before.late);
    }

    /// Behind a step of t: those that were late and those below t, without t and without those whose access must stay behind.
    fn late_behind(&self, program: &Program, t: usize, access: Access) -> u8 {
        let mut left = (self.late | ((1 << t) - 1)) & self.running & !(1 << t);
        let mut late = left;
        while left != 0 {
            let u = left.trailing_zeros() as usize;
            left &= left - 1;
            if access.conflicts(self.access(program, u)) {
                late &= !(1 << u);
            }
        }
        late
    }

    /// R2: do these threads of equal code stand at one place, both without a write, with the same sources?
    pub fn twins(&self, u: usize, t: usize) -> bool {
        self.words[u] == self.words[t]
    }
}

/// For each instruction of each thread: the locations that it and those behind it may read, and those they may write, as bits.
pub struct Left([[(u8, u8); 17]; 6]);

impl Left {
    pub fn of(program: &Program) -> Left {
        let mut all = [[(0, 0); 17]; 6];
        for (t, code) in program.threads.iter().enumerate() {
            for (k, instruction) in code.iter().enumerate().rev() {
                let (read, written) = match *instruction {
                    Instruction::Load { l, .. } => (1 << l, 0),
                    Instruction::Store { l, .. } => (0, 1 << l),
                    // a constant zero is never written, and a register may hold something else by then
                    Instruction::FetchAdd { l, p: Operand::Constant(0), .. } => (1 << l, 0),
                    Instruction::FetchAdd { l, .. } | Instruction::CompareSwap { l, .. } => (1 << l, 1 << l),
                    _ => (0, 0),
                };
                all[t][k] = (all[t][k + 1].0 | read, all[t][k + 1].1 | written);
            }
        }
        Left(all)
    }

    /// What an instruction of a thread and those behind it may read, and write.
    pub fn behind(&self, t: usize, k: usize) -> (u8, u8) {
        self.0[t][k.min(16)]
    }

    /// R3: are there late threads that nothing left to the others can wake?
    pub fn some_asleep(&self, program: &Program, place: &Place) -> bool {
        let mut asleep = place.late;
        while asleep != 0 {
            let (mut read, mut written) = (0, 0);
            let mut others = place.running & !asleep;
            while others != 0 {
                let u = others.trailing_zeros() as usize;
                others &= others - 1;
                let (reads, writes) = self.0[u][place.threads[u].next];
                (read, written) = (read | reads, written | writes);
            }
            let before = asleep;
            let mut each = asleep;
            while each != 0 {
                let t = each.trailing_zeros() as usize;
                each &= each - 1;
                let next = place.threads[t].next;
                let writer = !matches!(program.threads[t][next], Instruction::Load { .. });
                let feared = if writer { read | written } else { written };
                if feared >> place.access(program, t).location & 1 == 1 {
                    asleep &= !(1 << t);
                }
            }
            if asleep == before {
                return true;
            }
        }
        false
    }
}
