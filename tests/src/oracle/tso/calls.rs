//! The calls of this listing, with their refusals in order: the program's, 41, 22, then the schedule's. An output is given by its
//! length alone, and the list may be one that was worked out before.
use super::listing::{self, list};
use super::machine::run_full;
use crate::oracle::calls::{Found, GRAPH};
use crate::oracle::decode::{decode, Program};
use crate::oracle::listing::{after, class as images, count as counts, start as first, violation as failing, Listed};
use crate::oracle::{refused, Refusal};

/// Schedules need an output of so many bytes.
pub const SCHEDULE: usize = 48;
/// At most so many accesses in the file.
pub const ACCESSES: usize = 16;

/// The program, or its own refusal, or 41.
pub fn accepted(file: &[u8]) -> Result<Program, Refusal> {
    let program = decode(file)?;
    let accesses = program.threads.iter().flatten().filter(|instruction| instruction.is_access()).count();
    if accesses > ACCESSES {
        return refused(41, 0);
    }
    Ok(program)
}

/// The same, and 22.
fn with_output(file: &[u8], output: usize, needed: usize) -> Result<Program, Refusal> {
    let program = accepted(file)?;
    if output < needed {
        return refused(22, 0);
    }
    Ok(program)
}

pub fn graph(file: &[u8], schedule: &[u8], output: usize) -> Found {
    let program = with_output(file, output, GRAPH)?;
    run_full(&program, schedule).map(|machine| Some(machine.graph.text()))
}

/// How many different graphs are alike to that of a full schedule, itself counted. No output is lent.
pub fn class(file: &[u8], schedule: &[u8]) -> Result<u64, Refusal> {
    let program = accepted(file)?;
    let machine = run_full(&program, schedule)?;
    Ok(images(&program, &machine.graph).len() as u64)
}

pub fn start(file: &[u8], output: usize) -> Found {
    with_output(file, output, SCHEDULE).and_then(|program| start_in(&list(&program), file, output))
}

pub fn continue_from(file: &[u8], schedule: &[u8], output: usize) -> Found {
    with_output(file, output, SCHEDULE).and_then(|program| continue_in(&list(&program), file, schedule, output))
}

pub fn violation(file: &[u8], output: usize) -> Found {
    with_output(file, output, SCHEDULE).and_then(|program| violation_in(&list(&program), file, output))
}

pub fn count(file: &[u8]) -> Result<(u64, u64), Refusal> {
    Ok(counts(&list(&accepted(file)?)))
}

pub fn rows(file: &[u8], behind: Option<&[u8]>, output: usize) -> Result<Vec<u8>, Refusal> {
    Ok(listing::rows(&list(&accepted(file)?), behind, output))
}

/// The calls with the file's list given.
pub fn start_in(list: &[Listed], file: &[u8], output: usize) -> Found {
    with_output(file, output, SCHEDULE).map(|_| first(list))
}

pub fn continue_in(list: &[Listed], file: &[u8], schedule: &[u8], output: usize) -> Found {
    let program = with_output(file, output, SCHEDULE)?;
    run_full(&program, schedule)?;
    Ok(after(list, schedule))
}

pub fn violation_in(list: &[Listed], file: &[u8], output: usize) -> Found {
    with_output(file, output, SCHEDULE).map(|_| failing(list))
}
