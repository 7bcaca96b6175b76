//! rank: where a full schedule stands in the list: its place, or how many listed ones are smaller.
use super::arguments::Arguments;
use super::lent::memory;
use super::models::model;
use super::places::WALKS;
use super::reply::{asked, Question};
use crate::ask::{self, Counts};
use crate::end::End;
use crate::error::Error;
use crate::jobs::{Done, List};
use crate::json::Json;
use crate::members::{Members, Standing};
use crate::memory::Memory;
use crate::model::Model;
use crate::progress::{waiting, Progress};
use crate::schedule::Schedule;
use crate::{output, refusal};

pub fn run(arguments: &Arguments) -> Result<End, Error> {
    let (name, schedule) = arguments.file_and_schedule()?;
    let schedule = schedule.ok_or(Error::Words)?;
    let (model, memory) = (model(arguments)?, memory(arguments)?);
    asked(&Question::of("rank", arguments, name), |question| ranked(question, model, memory, &schedule))
}

fn ranked(question: &Question, model: Model, memory: Memory, schedule: &[u8]) -> Result<End, Error> {
    let source = question.source_under(model)?;
    let list = List::of(&source, false);
    // what is no full schedule is refused, under either model, before it is made one of at most so many steps
    ask::class(model, list.file, schedule).map_err(|r| refusal::of_schedule(&source.name, list.program, schedule, r))?;
    let schedule: Schedule = schedule.iter().copied().collect();
    let (standing, listed) = match model {
        Model::Sc => {
            let mut members = Members::of(list.file, list.program, memory);
            let (standing, counts) = waiting(|| (members.standing(&schedule), members.counts()));
            (standing.expect("the schedule is full"), Some(counts.listed))
        }
        Model::Tso => (walked(&list, &schedule)?, None),
    };
    let Standing { smaller, listed: is_listed } = standing;
    let place = is_listed.then_some(smaller + 1);
    let of = listed.map_or(String::new(), |listed| format!(" of {listed}"));
    let words = match place {
        Some(place) => format!("place {place}{of}"),
        None => format!("not listed: {smaller}{of} listed ones are smaller"),
    };
    let fields: [(&str, Json); 4] = [
        ("schedule", schedule.to_string().into()),
        ("smaller", smaller.into()),
        ("position", place.into()),
        ("listed", listed.into()),
    ];
    question.answer(&words, fields, End::Answered)
}

/// Where a full schedule stands, by a walk from the beginning.
fn walked(list: &List, schedule: &Schedule) -> Result<Standing, Error> {
    output::tell(WALKS);
    tarczolin_sys::note_interrupts();
    let (mut counts, mut cut) = (Counts::default(), false);
    let (mut progress, mut done) = (Progress::default(), Done::by_range(list));
    let reached = list.walk(None, |listed| {
        cut = tarczolin_sys::was_interrupted();
        if cut || listed.schedule >= *schedule {
            return true;
        }
        counts.add(listed.fails);
        progress.tell(counts, || Some(done.share(counts.listed, &listed.schedule)));
        false
    });
    progress.hide();
    match cut {
        true => Err(Error::Interrupted(counts)),
        false => Ok(Standing { smaller: counts.listed, listed: reached == Some(*schedule) }),
    }
}
