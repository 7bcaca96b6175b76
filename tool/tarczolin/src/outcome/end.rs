//! The end of an execution.
use crate::machine::{Failure, Machine};
use crate::program::Program;
use crate::schedule::Schedule;

/// Final memory, the registers of each thread, and the assertion of each thread that failed.
#[derive(Clone, Debug, PartialEq, Eq, PartialOrd, Ord)]
pub struct Final {
    pub memory: [u32; 8],
    pub registers: Vec<[u32; 4]>,
    pub failed: Vec<Option<Failure>>,
}

impl Final {
    /// Where a full schedule ends.
    pub fn of(program: &Program, schedule: &Schedule) -> Final {
        let mut machine = Machine::new(program);
        for &t in schedule.iter() {
            machine.step(t);
        }
        let (memory, registers) = machine.values();
        Final { memory, registers, failed: program.numbers().map(|t| machine.failure(t)).collect() }
    }

    pub fn fails(&self) -> bool {
        self.failed.iter().any(Option::is_some)
    }
}
