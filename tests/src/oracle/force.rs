//! Who can force the failure, by the words of document 02, k: by a plain recursion, and for small games by trying every strategy.
use super::decode::{decode, Program};
use super::machine::Machine;
use super::{refused, Refusal};
use std::collections::BTreeMap;

/// Which side can force its end; the hostile side with its least first step that keeps the win, if it has a step.
#[derive(Clone, Copy, Debug, PartialEq, Eq, PartialOrd, Ord)]
pub enum Forced {
    Hostile(Option<u8>),
    Friendly,
}

#[derive(Clone, Copy, Debug, PartialEq, Eq)]
pub enum Side {
    Hostile,
    Friendly,
}

impl Side {
    pub fn other(self) -> Side {
        match self {
            Side::Hostile => Side::Friendly,
            Side::Friendly => Side::Hostile,
        }
    }
}

/// The sides divide the threads: bit t of the set is thread t's.
fn side(set: u8, t: u8) -> Side {
    if set >> t & 1 == 1 {
        Side::Hostile
    } else {
        Side::Friendly
    }
}

/// The threads of a side that have not ended.
fn own(machine: &Machine, set: u8, of: Side) -> Vec<u8> {
    (0..machine.threads.len() as u8).filter(|&t| machine.may(t) && side(set, t) == of).collect()
}

/// The side that steps where it is this side's turn, with its threads: a side with none left passes.
fn mover(machine: &Machine, set: u8, turn: Side) -> (Side, Vec<u8>) {
    let threads = own(machine, set, turn);
    if threads.is_empty() {
        (turn.other(), own(machine, set, turn.other()))
    } else {
        (turn, threads)
    }
}

fn stepped<'a>(machine: &Machine<'a>, t: u8) -> Machine<'a> {
    let mut next = machine.clone();
    next.step(t);
    next
}

/// The side that wins where it is this side's turn: no state is decided before the play has ended.
fn winner(machine: &Machine, set: u8, turn: Side) -> Side {
    let (side, threads) = mover(machine, set, turn);
    if threads.is_empty() {
        return if machine.fails() { Side::Hostile } else { Side::Friendly };
    }
    if threads.iter().any(|&t| winner(&stepped(machine, t), set, side.other()) == side) {
        side
    } else {
        side.other()
    }
}

/// By the recursion.
pub fn forced(program: &Program, set: u8) -> Forced {
    let machine = Machine::new(program);
    let first = own(&machine, set, Side::Hostile);
    let keeps = |t: &u8| winner(&stepped(&machine, *t), set, Side::Friendly) == Side::Hostile;
    match first.iter().copied().find(keeps) {
        Some(t) => Forced::Hostile(Some(t)),
        None if first.is_empty() && winner(&machine, set, Side::Friendly) == Side::Hostile => Forced::Hostile(None),
        None => Forced::Friendly,
    }
}

/// The call: the program's refusals, then 48 at the lowest number in the set that names no thread.
pub fn force(file: &[u8], set: u8) -> Result<Forced, Refusal> {
    let program = decode(file)?;
    match (0..8).find(|&t| set >> t & 1 == 1 && t >= program.threads.len()) {
        Some(t) => refused(48, t),
        None => Ok(forced(&program, set)),
    }
}

/// A strategy: a step for each beginning of a play at which its side is to step.
type Strategy = BTreeMap<Vec<u8>, u8>;

/// All beginnings of plays behind this one at which a side is to step, each with the side's threads.
fn beginnings(machine: &Machine, set: u8, turn: Side, of: Side, begun: &mut Vec<u8>, all: &mut Vec<(Vec<u8>, Vec<u8>)>) {
    let (side, threads) = mover(machine, set, turn);
    if side == of && !threads.is_empty() {
        all.push((begun.clone(), threads.clone()));
    }
    for t in threads {
        begun.push(t);
        beginnings(&stepped(machine, t), set, side.other(), of, begun, all);
        begun.pop();
    }
}

/// Does every full play that follows the strategy end as its side wants?
fn every_play(machine: &Machine, set: u8, turn: Side, of: Side, strategy: &Strategy, begun: &mut Vec<u8>) -> bool {
    let (side, threads) = mover(machine, set, turn);
    if threads.is_empty() {
        return machine.fails() == (of == Side::Hostile);
    }
    let follows = |t: &u8| side != of || strategy[begun] == *t;
    let steps: Vec<u8> = threads.iter().copied().filter(follows).collect();
    steps.into_iter().all(|t| {
        begun.push(t);
        let all = every_play(&stepped(machine, t), set, side.other(), of, strategy, begun);
        begun.pop();
        all
    })
}

/// Can this side force its end where it is that side's turn, by trying each of its strategies? None if there are more than so many.
pub fn by_strategies(machine: &Machine, set: u8, turn: Side, of: Side, most: u64) -> Option<bool> {
    let mut all = Vec::new();
    beginnings(machine, set, turn, of, &mut Vec::new(), &mut all);
    let count = all.iter().try_fold(1u64, |n, (_, threads)| n.checked_mul(threads.len() as u64).filter(|n| *n <= most))?;
    Some((0..count).any(|number| {
        let mut left = number;
        let strategy = all.iter().map(|(begun, threads)| {
            let choice = threads[(left % threads.len() as u64) as usize];
            left /= threads.len() as u64;
            (begun.clone(), choice)
        });
        every_play(machine, set, turn, of, &strategy.collect(), &mut Vec::new())
    }))
}

/// The whole answer by strategies, and whether the friendly side can force. None if there are too many strategies.
pub fn forced_by_strategies(program: &Program, set: u8, most: u64) -> Option<(Forced, bool)> {
    let machine = Machine::new(program);
    let hostile = by_strategies(&machine, set, Side::Hostile, Side::Hostile, most)?;
    let friendly = by_strategies(&machine, set, Side::Hostile, Side::Friendly, most)?;
    let mut keeping = Vec::new();
    for t in own(&machine, set, Side::Hostile) {
        if by_strategies(&stepped(&machine, t), set, Side::Friendly, Side::Hostile, most)? {
            keeping.push(t);
        }
    }
    Some((if hostile { Forced::Hostile(keeping.first().copied()) } else { Forced::Friendly }, friendly))
}
