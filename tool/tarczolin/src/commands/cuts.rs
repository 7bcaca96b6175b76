//! cuts: full schedules that cut the list into pieces, for more than one machine: into pieces of equal numbers of members, or, where the
//! list is too long to be counted, into parts of the range of all schedules.
use super::arguments::Arguments;
use super::lent::memory;
use super::models::model;
use super::opt::Opt;
use super::pick::members;
use super::reply::{asked, Question};
use crate::accepted::Accepted;
use crate::end::End;
use crate::error::Error;
use crate::jobs::{cuts, List};
use crate::json::list;
use crate::memory::Memory;
use crate::model::Model;
use crate::schedule::Schedule;

pub const BY: Opt = Opt {
    name: "--by",
    value: Some("members|range"),
    about: "pieces of equal numbers of members, or parts of the range, of very different length, which needs no count",
};

/// At most so many pieces.
const PIECES: u64 = 100_000;

#[derive(Clone, Copy, PartialEq, Eq)]
enum By {
    Members,
    Range,
}

pub fn run(arguments: &Arguments) -> Result<End, Error> {
    let [name, pieces] = arguments.files()?;
    let pieces = pieces.to_string_lossy();
    let number = pieces.parse().ok().filter(|number| (1..=PIECES).contains(number));
    let pieces = number.ok_or_else(|| Error::usage(format!("cuts takes a number from 1 to {PIECES}, not {pieces}")))?;
    let (model, memory) = (model(arguments)?, memory(arguments)?);
    // under total store order no call counts by states or finds a place
    let otherwise = if model == Model::Sc { By::Members } else { By::Range };
    let by = arguments.one_of(BY.name, &[("members", By::Members), ("range", By::Range)], otherwise)?;
    if model == Model::Tso && by == By::Members {
        return Err(Error::usage("under total store order no call finds a place of the list; --by range cuts the range"));
    }
    asked(&Question::of("cuts", arguments, name), |question| {
        let source = question.source_under(model)?;
        let bounds = match by {
            By::Members => even(&source, pieces, memory)?,
            By::Range => cuts(&source.program, pieces as usize),
        };
        let bounds: Vec<String> = bounds.iter().map(ToString::to_string).collect();
        let text: String = bounds.iter().map(|bound| format!("{bound}\n")).collect();
        question.answer_text(text, [("bounds", list(bounds))], End::Answered)
    })
}

/// The last members of so many pieces whose numbers of members differ by at most one; of as many pieces as there are members where these
/// are fewer.
fn even(source: &Accepted, pieces: u64, memory: Memory) -> Result<Vec<Schedule>, Error> {
    let list = List::of(source, true);
    let (_, found) = members(&list, memory, |listed| {
        let pieces = pieces.min(listed);
        (1..=pieces).map(|piece| (piece as u128 * listed as u128 / pieces as u128) as u64).collect()
    })?;
    Ok(found.into_iter().map(|listed| listed.schedule).collect())
}
