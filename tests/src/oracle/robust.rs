//! Robust programs, by brute force: the graph of every full schedule of total store order, by the definition of consistent.
use super::calls::Found;
use super::decode::Program;
use super::judge::consistent;
use super::listing::Listed;
use super::refused;
use super::tso::calls::{accepted, SCHEDULE};
use super::tso::machine::run_full;

/// Is the graph of this full schedule not consistent?
pub fn relaxed(program: &Program, schedule: &[u8]) -> bool {
    !consistent(program, &run_full(program, schedule).expect("the schedule is full").graph)
}

/// The call with the file's list given: its refusals, 41, 22; then the first listed schedule that is relaxed, or none.
pub fn robust_in(list: &[Listed], file: &[u8], output: usize) -> Found {
    let program = accepted(file)?;
    if output < SCHEDULE {
        return refused(22, 0);
    }
    Ok(list.iter().map(|listed| &listed.schedule).find(|schedule| relaxed(&program, schedule)).cloned())
}
