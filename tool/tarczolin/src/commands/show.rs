//! show: executions in two columns, as a page, or drawn. Totals and exit status are those of the whole list.
use super::arguments::{may_be_schedule, Arguments};
use super::chosen::{self, Walk, Walked};
use super::lent::memory;
use super::models::model;
use super::pages;
use super::piece;
use super::places::Places;
use super::record;
use super::reply::{asked, each, Question};
use crate::ask::Counts;
use crate::called::called;
use crate::end::End;
use crate::error::Error;
use crate::execution::Execution;
use crate::jobs::List;
use crate::model::Model;
use crate::show::{columns, By};
use crate::{input, output, refusal};
use std::ffi::OsStr;
use std::io::Write;

/// Which executions are shown, and how.
pub struct Choice<'a> {
    model: Model,
    chosen: chosen::Choice,
    by: By,
    html: Option<&'a OsStr>,
    svg: Option<&'a OsStr>,
}

impl<'a> Choice<'a> {
    fn of(arguments: &'a Arguments) -> Result<Choice<'a>, Error> {
        let failing_only = arguments.one_of("--only", &[("failing", true)], false)?;
        Ok(Choice {
            model: model(arguments)?,
            chosen: chosen::Choice { places: Places::of(arguments)?, failing_only, memory: memory(arguments)? },
            by: arguments.one_of("--by", &[("time", By::Time), ("thread", By::Thread)], By::Time)?,
            html: arguments.path("--html"),
            svg: arguments.path("--svg"),
        })
    }
}

pub fn run(arguments: &Arguments) -> Result<End, Error> {
    arguments.one_of_these(&["--html", "--svg", "--json"])?;
    let choice = Choice::of(arguments)?;
    let names = arguments.names()?;
    if names.len() > 1 && names[1..].iter().all(|word| may_be_schedule(word)) {
        let (name, schedule) = arguments.file_and_schedule()?;
        let schedule = schedule.ok_or(Error::Words)?;
        if ["--from", "--to", "--only"].iter().any(|option| arguments.flag(option)) {
            return Err(Error::usage("--from, --to and --only choose from the list, and a schedule names one execution"));
        }
        return asked(&Question::of("show", arguments, name), |question| one(question, &choice, &schedule));
    }
    if names.len() > 1 && (choice.html.is_some() || choice.svg.is_some()) {
        return Err(Error::usage("a page or drawings are made of one file"));
    }
    each("show", arguments, |question| shown(question, &choice))
}

/// A page never takes the place of the program that it shows.
fn overwrites_nothing(question: &Question, choice: &Choice) -> Result<(), Error> {
    if choice.html.is_some_and(|page| page != "-" && input::is_input(page, question.file)) {
        let message = "the page would overwrite the program that it shows; name another file behind --html";
        return Err(Error::usage(format!("{}: {message}", called(question.file))));
    }
    Ok(())
}

fn shown(question: &Question, choice: &Choice) -> Result<End, Error> {
    overwrites_nothing(question, choice)?;
    let source = question.source_under(choice.model)?;
    let list = List::of(&source, false);
    let walk = Walk::of(&list, choice.chosen, choice.html.is_some() || choice.svg.is_some())?;
    match (choice.html, choice.svg) {
        (Some(page), _) => pages::page(&pages::of_list(&source.name, &walk)?, page),
        (_, Some(folder)) => pages::drawings(&pages::of_list(&source.name, &walk)?, folder),
        _ => to_standard_output(question, &walk, choice),
    }
}

/// One execution by its schedule.
fn one(question: &Question, choice: &Choice, schedule: &[u8]) -> Result<End, Error> {
    overwrites_nothing(question, choice)?;
    let source = question.source_under(choice.model)?;
    let list = List::of(&source, false);
    let refused = |r| refusal::of_schedule(&source.name, list.program, schedule, r);
    let execution = Execution::replayed(list.file, list.program, schedule).map_err(refused)?;
    let found = End::of_failing(execution.fails as u64);
    match (choice.html, choice.svg) {
        (Some(page), _) => pages::page(&pages::of_one(&source.name, execution), page),
        (_, Some(folder)) => pages::drawings(&pages::of_one(&source.name, execution), folder),
        _ => question.answer_text(columns(&execution, choice.by), record::execution(&execution), found),
    }
}

fn to_standard_output(question: &Question, walk: &Walk, choice: &Choice) -> Result<End, Error> {
    let mut out = output::standard();
    let mut shown = 0;
    let headed = if question.json { Ok(()) } else { out.write_all(question.heading().as_bytes()) };
    let Walked { counts, place, written, cut } = walk.walk(&mut |position, listed| {
        let blank = if shown > 0 { "\n" } else { "" };
        shown += 1;
        let execution = pages::execution(walk.list, position, listed);
        match question.json {
            true => out.write_all(question.object(record::execution(&execution)).as_bytes()),
            false => write!(out, "{blank}{}", columns(&execution, choice.by)),
        }
    });
    let written = headed.and(written).and_then(|()| {
        let Counts { listed, failing } = counts;
        if cut {
            return out.flush();
        }
        if question.json {
            out.write_all(question.object([("listed", listed.into()), ("failing", failing.into())]).as_bytes())?;
        } else if shown == 0 {
            writeln!(out, "nothing to show: none of the listed executions is chosen ({listed} listed, {failing} failing)")?;
        }
        out.flush()
    });
    if cut {
        piece::tell_interrupted(counts, Some(format!("--from {}", place + 1)));
    }
    output::ended(written, if cut { End::of_cut(counts.failing) } else { End::of_failing(counts.failing) })
}
