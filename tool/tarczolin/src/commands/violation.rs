//! violation: the first listed schedule that fails.
use super::arguments::Arguments;
use super::expected::{self, asking};
use super::opt::Opt;
use super::piece::{self, Found, Piece};
use super::record;
use super::reply::{each, Question};
use crate::accepted::Accepted;
use crate::ask;
use crate::blame;
use crate::end::End;
use crate::error::Error;
use crate::execution::Execution;
use crate::jobs::List;
use crate::json::{list as json_list, Json};
use crate::memory::Memory;
use crate::model::Model;
use crate::schedule::Schedule;
use crate::show::{columns, By};
use crate::switches::{fewest, switches};
use std::io;
use tarczolin_sys::Scratch;

pub const FEWEST: Opt = Opt {
    name: "--fewest",
    value: Some("switches"),
    about: "beside the first the failing one with the fewest changes of thread, by plain Rust, which is not proved",
};

const WHY_NOTE: &str = "traced back from the assertion by plain Rust, which is not proved";

pub fn run(arguments: &Arguments) -> Result<End, Error> {
    let piece = Piece::of(arguments)?;
    let asking = asking(arguments, piece.jobs)?;
    let fewest = arguments.one_of(FEWEST.name, &[("switches", true)], false)?;
    each("violation", arguments, |question| {
        let source = question.source_under(piece.model)?;
        let expectations = source.expectations()?;
        expected::note_others(question, &source, &expectations, piece.model)?;
        let showing = Showing { show: arguments.flag("--show"), fewest, limit: asking.limit, memory: piece.memory };
        let end = violation(question, &source, &piece, showing)?;
        Ok(end.max(expected::tell(question, &source, &expectations, asking)?))
    })
}

/// What is shown of a violation, and how it is looked for.
#[derive(Clone, Copy)]
struct Showing {
    show: bool,
    fewest: bool,
    limit: u64,
    memory: Memory,
}

fn violation(question: &Question, source: &Accepted, piece: &Piece, showing: Showing) -> Result<End, Error> {
    let model = piece.model;
    let list = List::of(source, false);
    let found = if piece.is_one_call() {
        let call = move |file: &[u8], scratch: &Scratch| ask::violation_in(model, file, scratch);
        let scratch = showing.memory.looked_at(model, list.program);
        piece::answered(&list, scratch, true, call).map(|found| found.expect("the file is accepted"))
    } else {
        by_rows(&list, piece)
    };
    let found = match found {
        Ok(found) => found,
        Err(cut) => {
            let option = if model == Model::Tso { " --model tso" } else { "" };
            piece::tell_interrupted(cut.counts, cut.last.map(|last| format!("list{option} --after {last}")));
            return Ok(End::Refused);
        }
    };
    let Some(schedule) = found else { return question.answer("none", [("violation", None::<String>.into())], End::Answered) };
    if showing.fewest {
        return beside(question, source, piece, &schedule, showing);
    }
    let field = ("violation", schedule.to_string().into());
    if !showing.show {
        return question.answer(&schedule.told(), [field], End::Violation);
    }
    let (text, why, execution) = shown(source, &schedule);
    let [position, _, fails, executions, steps, at_once, memory, registers] = execution;
    let fields = [field, position, fails, executions, steps, at_once, memory, registers, ("why", why)];
    question.answer_text(text, fields, End::Violation)
}

/// An execution in columns, and below them from where its failure comes.
fn shown(source: &Accepted, schedule: &Schedule) -> (String, Json, [(&'static str, Json); 8]) {
    let execution = Execution::replayed(&source.file, &source.program, schedule).expect("a listed schedule is full");
    let why = blame::sentences(&execution);
    let lines: String = why.iter().map(|sentence| format!("why        {sentence}\n")).collect();
    let note = format!("           ({WHY_NOTE})\n");
    (columns(&execution, By::Time) + &lines + &note, json_list(why), record::execution(&execution))
}

/// The failing one with the fewest changes of thread beside the first.
fn beside(question: &Question, source: &Accepted, piece: &Piece, first: &Schedule, showing: Showing) -> Result<End, Error> {
    let found = fewest(&List::of(source, true), piece.jobs, showing.limit);
    let Some(best) = found.best.filter(|_| !found.open) else {
        let message =
            format!("not decided: more than {} are listed; a greater number behind --limit looks at more", found.walked);
        return Err(Error::Unfit { name: source.name.clone(), message });
    };
    let fields = [
        ("violation", first.to_string().into()),
        ("switches", (switches(first) as u64).into()),
        ("fewest", best.to_string().into()),
        ("fewest_switches", (switches(&best) as u64).into()),
        ("failing", found.failing.into()),
    ];
    let count = |schedule: &Schedule| match switches(schedule) {
        1 => "1 change of thread".to_string(),
        count => format!("{count} changes of thread"),
    };
    let line = |word: &str, schedule: &Schedule| format!("{word:<6}  {}, {}\n", schedule.told(), count(schedule));
    let both = line("first", first) + &line("fewest", &best);
    let note = format!("(the fewest of {} failing by plain Rust over the list, which is not proved)\n", found.failing);
    let text = if showing.show { shown(source, &best).0 } else { String::new() };
    question.answer_text(both + &note + &text, fields, End::Violation)
}

/// The first one that fails, by rows: their parts come in order, so the first part that has one has the first of all.
fn by_rows(list: &List, piece: &Piece) -> Result<Option<Schedule>, Box<Found>> {
    let found = piece::walk(list, piece.jobs, piece.memory, |part| match part.first_failing {
        Some(_) => Err(io::Error::other("found")),
        None => Ok(()),
    });
    if found.cut && found.first_failing.is_none() {
        return Err(Box::new(found));
    }
    Ok(found.first_failing)
}
