//! The calls as document 01 orders their refusals: the program's, then 22, then the schedule's or the graph's.
//! An output is given by its length alone.
use super::decode::{decode, Program};
use super::graph::Graph;
use super::{judge, listing, machine, refused, Refusal};
use crate::files::line;

/// Schedules need an output of so many bytes.
pub const SCHEDULE: usize = 24;
/// Graph texts need an output of so many bytes.
pub const GRAPH: usize = 512;

/// A schedule, or no more, none, no.
pub type Found = Result<Option<Vec<u8>>, Refusal>;

fn accepted(file: &[u8], output: usize, needed: usize) -> Result<Program, Refusal> {
    let program = decode(file)?;
    if output < needed {
        return refused(22, 0);
    }
    Ok(program)
}

pub fn start(file: &[u8], output: usize) -> Found {
    let program = accepted(file, output, SCHEDULE)?;
    Ok(listing::start(&listing::list(&program)))
}

pub fn continue_from(file: &[u8], schedule: &[u8], output: usize) -> Found {
    let program = accepted(file, output, SCHEDULE)?;
    machine::run_full(&program, schedule)?;
    Ok(listing::after(&listing::list(&program), schedule))
}

/// The rows of the listed schedules after this one, or of the first ones; an output of any length is enough.
pub fn rows(file: &[u8], behind: Option<&[u8]>, output: usize) -> Result<Vec<u8>, Refusal> {
    Ok(listing::rows(&listing::list(&decode(file)?), behind, output))
}

pub fn count(file: &[u8]) -> Result<(u64, u64), Refusal> {
    Ok(listing::count(&listing::list(&decode(file)?)))
}

pub fn violation(file: &[u8], output: usize) -> Found {
    let program = accepted(file, output, SCHEDULE)?;
    Ok(listing::violation(&listing::list(&program)))
}

/// The text of the graph of a full schedule.
pub fn graph(file: &[u8], schedule: &[u8], output: usize) -> Result<Vec<u8>, Refusal> {
    let program = accepted(file, output, GRAPH)?;
    let machine = machine::run_full(&program, schedule)?;
    Ok(Graph::of(&machine).text())
}

/// How many different graphs are alike to that of a full schedule, itself counted. No output is lent.
pub fn class(file: &[u8], schedule: &[u8]) -> Result<u64, Refusal> {
    let program = decode(file)?;
    let machine = machine::run_full(&program, schedule)?;
    Ok(listing::class(&program, &Graph::of(&machine)).len() as u64)
}

pub fn judge(file: &[u8], text: &[u8], output: usize) -> Found {
    let program = accepted(file, output, SCHEDULE)?;
    judge::judge(&program, text)
}

/// What the listing program prints for this input.
pub fn report(file: &[u8]) -> Vec<u8> {
    let program = match decode(file) {
        Ok(program) => program,
        Err(r) => return line(&[0x52, r.number, (r.place >> 8) as u8, r.place as u8]),
    };
    let list = listing::list(&program);
    let mut text = Vec::new();
    for listed in &list {
        text.extend(line(&[vec![0x50, listed.fails as u8], listed.schedule.clone()].concat()));
    }
    let (all, failing) = listing::count(&list);
    text.extend(line(&[vec![0x51], all.to_be_bytes().to_vec(), failing.to_be_bytes().to_vec()].concat()));
    text
}
