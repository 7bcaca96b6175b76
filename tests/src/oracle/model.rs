//! The two memory models side by side: what of the oracle belongs to which.
use super::covers::Outcome;
use super::decode::{decode, Program};
use super::listing::{self, Listed};
use super::machine::{every_full, run_full, Machine};
use super::tso::calls::accepted;
use super::{calls, tso, Refusal};
use std::collections::BTreeSet;

#[derive(Clone, Copy, Debug, PartialEq, Eq)]
pub enum Model {
    Sc,
    Tso,
}

impl Model {
    pub const BOTH: [Model; 2] = [Model::Sc, Model::Tso];

    /// The byte that names it.
    pub fn byte(self) -> u8 {
        self as u8
    }

    /// The model that a byte names, if it names one.
    pub fn named(byte: u8) -> Option<Model> {
        Model::BOTH.into_iter().find(|model| model.byte() == byte)
    }

    /// A schedule needs an output of so many bytes.
    pub fn schedule(self) -> usize {
        match self {
            Model::Sc => calls::SCHEDULE,
            Model::Tso => tso::calls::SCHEDULE,
        }
    }

    /// The program of a file, or its refusal, with 41 under total store order.
    pub fn accepted(self, file: &[u8]) -> Result<Program, Refusal> {
        match self {
            Model::Sc => decode(file),
            Model::Tso => accepted(file),
        }
    }

    /// The listed schedules, ascending; none where under total store order that takes more steps than these.
    pub fn list_within(self, program: &Program, steps: u64) -> Option<Vec<Listed>> {
        match self {
            Model::Sc => Some(listing::list(program)),
            Model::Tso => tso::listing::list_within(program, steps),
        }
    }

    /// The row of a listed schedule.
    pub fn row(self, listed: &Listed) -> Vec<u8> {
        match self {
            Model::Sc => listing::row(listed),
            Model::Tso => tso::listing::row(listed),
        }
    }

    /// How a full schedule ends.
    pub fn outcome(self, program: &Program, schedule: &[u8]) -> Outcome {
        const FULL: &str = "the schedule is full";
        match self {
            Model::Sc => run_full(program, schedule).map(|machine| (machine.memory, machine.fails())).expect(FULL),
            Model::Tso => tso::machine::run_full(program, schedule).map(|machine| (machine.memory, machine.fails())).expect(FULL),
        }
    }

    /// The outcomes of all full schedules, listed or not.
    pub fn outcomes(self, program: &Program) -> BTreeSet<Outcome> {
        let mut all = BTreeSet::new();
        match self {
            Model::Sc => {
                _ = every_full(&Machine::new(program), &mut Vec::new(), &mut |_, machine| {
                    all.insert((machine.memory, machine.fails()));
                    false
                })
            }
            Model::Tso => tso::listing::every_end(program, &mut |machine| _ = all.insert((machine.memory, machine.fails()))),
        }
        all
    }
}
