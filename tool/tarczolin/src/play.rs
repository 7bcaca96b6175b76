//! One play in which the winner follows its strategy. Which step keeps the win is the library's answer at each turn, about the program that begins where
//! the play stands; that program is made in plain Rust, which is not proved.
use crate::ask::{self, Force};
use crate::machine::Machine;
use crate::memory::Memory;
use crate::model::Model;
use crate::program::{file, Comparison, Frame, Instruction, Operand, Program};
use crate::schedule::Schedule;

/// A game: the threads of the hostile side, bit t for thread t, and the memory that is lent to the library.
struct Game {
    set: u8,
    memory: Memory,
    scratch: Vec<u64>,
}

impl Game {
    /// The threads, not yet ended, of the side that steps: of the one whose turn it is, or of the other if that one passes.
    fn movers(&self, machine: &Machine, hostile: bool) -> (bool, Vec<u8>) {
        let of = |side: bool| machine.going().filter(|&t| (self.set >> t & 1 == 1) == side).collect::<Vec<u8>>();
        match of(hostile) {
            none if none.is_empty() => (!hostile, of(!hostile)),
            some => (hostile, some),
        }
    }

    /// Who can force its end where a machine stands and it is the hostile side's turn?
    fn asked(&mut self, program: &Program, machine: &Machine) -> Force {
        let rest = rest(program, machine);
        let words = self.memory.words(Model::Sc, &Program::of_accepted(&rest)).min(self.scratch.len());
        ask::force(&rest, self.set, &mut self.scratch[..words]).expect("what is left of a program is a program")
    }

    /// The first step of the side that can force and has these: behind a friendly one it is the hostile side's turn.
    fn keeping(&mut self, program: &Program, machine: &Machine, side: bool, movers: &[u8]) -> u8 {
        if side {
            return match self.asked(program, machine) {
                Force::Hostile(Some(t)) => t,
                other => unreachable!("{other:?} where the hostile side can force and has a step"),
            };
        }
        let keeps = |t: &u8| {
            let mut next = machine.clone();
            next.step(*t);
            self.asked(program, &next) == Force::Friendly
        };
        movers.iter().copied().find(keeps).expect("the friendly side can force and has a step")
    }
}

/// Sets a register to a value.
fn set(r: u8, value: u32) -> Instruction {
    Instruction::Set { r, p: Operand::Constant(value) }
}

/// An assertion that fails in a thread that begins with it.
const FAILS: Instruction = Instruction::Assert { test: Comparison::Equal, r: 0, p: Operand::Constant(1) };

/// The file of the program that begins where a machine stands. It has no more instructions: each register that is not 0 was given its value by one.
fn rest(program: &Program, machine: &Machine) -> Vec<u8> {
    let (memory, registers) = machine.values();
    let mut frames: Vec<Frame> =
        (0..).zip(memory).filter(|(_, value)| *value != 0).map(|(l, value)| Frame::Start(l, value)).collect();
    for ((t, at), registers) in program.numbers().zip(machine.places()).zip(registers) {
        frames.push(Frame::Thread);
        if machine.failure(t).is_some() {
            frames.push(Frame::Instruction(FAILS));
            continue;
        }
        let left = program.threads[t as usize].get(at as usize..).unwrap_or_default();
        if !left.is_empty() {
            let given = (0..).zip(registers).filter(|(_, value)| *value != 0).map(|(r, value)| set(r, value));
            frames.extend(given.chain(left.iter().copied()).map(Frame::Instruction));
        }
    }
    file(&frames)
}

/// A full play in which the winner follows its strategy: it takes its first step that keeps the win, the loser its first step.
pub fn play(program: &Program, set: u8, memory: Memory) -> Schedule {
    let mut game = Game { set, memory, scratch: memory.lent(Model::Sc, program) };
    let mut machine = Machine::new(program);
    let mut schedule = Schedule::default();
    let winner = game.asked(program, &machine) != Force::Friendly;
    let mut turn = true;
    loop {
        let (side, movers) = game.movers(&machine, turn);
        if movers.is_empty() {
            return schedule;
        }
        let t = if side == winner { game.keeping(program, &machine, side, &movers) } else { movers[0] };
        machine.step(t);
        schedule.push(t);
        turn = !side;
    }
}
