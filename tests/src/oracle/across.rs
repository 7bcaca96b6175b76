//! One program under a memory model against another under its own, by brute force: the outcomes of every full schedule of both.
use super::covers::Covers;
use super::model::Model;
use super::{tso, Refusal};

/// A program file, and the byte of the model that it runs under.
pub type Under<'a> = (u8, &'a [u8]);

/// The call: 49 for a byte that names no model, at place 0 or 1; the first file's refusals, then the second's, each with 41 where its model is
/// total store order; then 22. None where the list of the second takes more steps than these.
pub fn call(first: Under, second: Under, output: usize, steps: u64) -> Option<Covers> {
    let named = [first, second].map(|(byte, _)| Model::named(byte));
    if let Some(place) = named.iter().position(Option::is_none) {
        return Some(Covers::First(Refusal { number: 49, place: place as u64 }));
    }
    let [one, other] = named.map(|model| model.expect("both are named"));
    let old = match one.accepted(first.1) {
        Ok(program) => program,
        Err(refusal) => return Some(Covers::First(refusal)),
    };
    let new = match other.accepted(second.1) {
        Ok(program) => program,
        Err(refusal) => return Some(Covers::Second(refusal)),
    };
    if output < tso::calls::SCHEDULE {
        return Some(Covers::Output);
    }
    let known = one.outcomes(&old);
    if other.outcomes(&new).is_subset(&known) {
        return Some(Covers::Covered);
    }
    let list = other.list_within(&new, steps)?;
    let lacks = |schedule: &&Vec<u8>| !known.contains(&other.outcome(&new, schedule));
    let found = list.iter().map(|listed| &listed.schedule).find(lacks);
    Some(Covers::Lacking(found.expect("some listed schedule has the outcome").clone()))
}
