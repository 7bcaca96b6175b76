//! The outcomes of a program, each once: the list is walked, and a schedule whose outcome was not met in front of it is kept.
use super::covers::Outcome;
use super::decode::Program;
use super::listing::Listed;
use super::model::Model;
use super::{refused, Refusal};
use std::collections::BTreeSet;

/// A row has so many bytes: eight values of four bytes, the number of steps, whether it fails, and room for the steps.
pub fn size(model: Model) -> usize {
    8 * 4 + 2 + model.schedule()
}

/// Each outcome with the first listed schedule that has it, in the order of these.
pub fn firsts<'a>(model: Model, program: &Program, list: &'a [Listed]) -> Vec<(Outcome, &'a Listed)> {
    let mut met = BTreeSet::new();
    let ends = list.iter().map(|listed| (model.outcome(program, &listed.schedule), listed));
    ends.filter(|(outcome, _)| met.insert(*outcome)).collect()
}

/// The row of an outcome: its values, each most significant byte first, and the schedule's row.
pub fn row(model: Model, (outcome, listed): &(Outcome, &Listed)) -> Vec<u8> {
    let values = outcome.0.iter().flat_map(|value| value.to_be_bytes());
    values.chain(model.row(listed)).collect()
}

/// The call with the file's list given: the program's refusals, 41 under total store order, then 22; else the rows from this number on, as many
/// as have room in so many bytes.
pub fn call_in(model: Model, list: &[Listed], file: &[u8], from: u64, output: usize) -> Result<Vec<u8>, Refusal> {
    let program = model.accepted(file)?;
    if output < size(model) {
        return refused(22, 0);
    }
    let from = usize::try_from(from).unwrap_or(usize::MAX);
    Ok(firsts(model, &program, list).iter().skip(from).take(output / size(model)).flat_map(|one| row(model, one)).collect())
}
