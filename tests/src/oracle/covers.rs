//! One program against another, by brute force: the outcomes of every full schedule of both.
use super::decode::{decode, Program};
use super::listing;
use super::machine::{every_full, run_full, Machine};
use super::Refusal;
use std::collections::BTreeSet;

/// The outcome of a full schedule: the eight final values, and whether it fails.
pub type Outcome = ([u32; 8], bool);

/// What the call over two files says.
#[derive(Clone, Debug, PartialEq, Eq)]
pub enum Covers {
    Covered,
    /// The first listed schedule of the second with an outcome that the first lacks.
    Lacking(Vec<u8>),
    First(Refusal),
    Second(Refusal),
    /// 22: the output is too short.
    Output,
}

fn outcome(machine: &Machine) -> Outcome {
    (machine.memory, machine.fails())
}

/// The outcomes of all full schedules, listed or not.
pub fn outcomes(program: &Program) -> BTreeSet<Outcome> {
    let mut all = BTreeSet::new();
    every_full(&Machine::new(program), &mut Vec::new(), &mut |_, machine| {
        all.insert(outcome(machine));
        false
    });
    all
}

/// Is each outcome of the second one of the first?
pub fn covers(first: &Program, second: &Program) -> bool {
    outcomes(second).is_subset(&outcomes(first))
}

/// The call: the first file's refusals, then the second's, then 22.
pub fn call(first: &[u8], second: &[u8], output: usize) -> Covers {
    let first = match decode(first) {
        Ok(program) => program,
        Err(refusal) => return Covers::First(refusal),
    };
    let second = match decode(second) {
        Ok(program) => program,
        Err(refusal) => return Covers::Second(refusal),
    };
    if output < super::calls::SCHEDULE {
        return Covers::Output;
    }
    if covers(&first, &second) {
        return Covers::Covered;
    }
    let known = outcomes(&first);
    let lacks = |schedule: &[u8]| !known.contains(&outcome(&run_full(&second, schedule).expect("a listed schedule is full")));
    let listed = listing::list(&second).into_iter().map(|listed| listed.schedule);
    Covers::Lacking(listed.into_iter().find(|schedule| lacks(schedule)).expect("some listed schedule has the outcome"))
}
