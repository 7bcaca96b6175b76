//! Live registers: those that the code left may read before it writes them. What any other holds changes nothing.
use super::Packed;
use crate::oracle::decode::{Instruction, Operand, Program};
use crate::oracle::machine::Thread;

/// For each instruction of each thread, and for the end, the registers that are live before it, as bits.
pub struct Live([[u8; 17]; 6]);

impl Live {
    pub fn of(program: &Program) -> Live {
        let mut all = [[0; 17]; 6];
        for (t, code) in program.threads.iter().enumerate() {
            for (k, instruction) in code.iter().enumerate().rev() {
                let (read, written, skipped) = registers(instruction);
                all[t][k] = read | (all[t][k + 1] | all[t][k + 1 + skipped]) & !written;
            }
        }
        Live(all)
    }

    /// How many registers are live at once at most, over all threads.
    pub(super) fn most(&self) -> usize {
        self.0.iter().map(|sets| sets.iter().map(|set| set.count_ones() as usize).max().unwrap_or(0)).sum()
    }

    /// The live registers of a thread before one of its instructions, or at its end.
    pub fn of_thread(&self, t: usize, at: usize) -> u8 {
        self.0[t][at]
    }

    /// Puts what the live registers of a thread hold behind the values.
    pub(super) fn put(&self, values: &mut Packed, t: usize, thread: &Thread) {
        let mut live = self.of_thread(t, thread.next);
        while live != 0 {
            values.put(thread.registers[live.trailing_zeros() as usize % 4]);
            live &= live - 1;
        }
    }
}

/// The registers that an instruction reads, those that it writes, as bits, and how many instructions it may skip.
fn registers(instruction: &Instruction) -> (u8, u8, usize) {
    let of = |operand: Operand| if let Operand::Register(r) = operand { 1 << r } else { 0 };
    match *instruction {
        Instruction::Store { p, .. } => (of(p), 0, 0),
        Instruction::Load { r, .. } => (0, 1 << r, 0),
        Instruction::FetchAdd { r, p, .. } => (of(p), 1 << r, 0),
        Instruction::CompareSwap { r, e, v, .. } => (of(e) | of(v), 1 << r, 0),
        Instruction::Set { r, p } => (of(p), 1 << r, 0),
        Instruction::Add { r, p } => (1 << r | of(p), 1 << r, 0),
        Instruction::SkipUnless { r, p, n } | Instruction::SkipUnlessAtMost { r, p, n } => (1 << r | of(p), 0, n as usize),
        Instruction::Assert { r, p } | Instruction::AssertAtMost { r, p } => (1 << r | of(p), 0, 0),
    }
}
