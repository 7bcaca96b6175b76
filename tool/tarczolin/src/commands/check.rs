//! check: is this a program? What it uses of what there is, or why not.
use super::arguments::Arguments;
use super::expected::{self, asking, Found};
use super::models::only_model;
use super::reply::{each, Question};
use crate::accepted::Accepted;
use crate::decide::Asking;
use crate::end::End;
use crate::error::Error;
use crate::input;
use crate::json::{list, object, Json};
use crate::model::Model;
use crate::program::{Used, ACCESSES, ACCESSES_TSO, INSTRUCTIONS, LOCATIONS, REGISTERS, THREADS};

pub fn run(arguments: &Arguments) -> Result<End, Error> {
    let (model, asking) = (only_model(arguments)?, asking(arguments, 1)?);
    each("check", arguments, |question| checked(question, model, asking))
}

fn checked(question: &Question, model: Option<Model>, asking: Asking) -> Result<End, Error> {
    let content = input::content(question.file)?;
    let source = Accepted::of(&content, model)?;
    question.noted(&source.name, &source.notes)?;
    let expectations = source.expectations()?;
    if let Some(model) = model {
        expected::note_others(question, &source, &expectations, model)?;
    }
    let used = source.program.used();
    let made = |(line, accesses): &(usize, usize)| {
        object([("line", Json::from(*line as u64)), ("accesses", Json::from(*accesses as u64))])
    };
    let fields = [("accepted", true.into()), ("used", json(&used)), ("made", list(source.made.iter().map(made)))];
    let mut words = format!("accepted: {}", told(&used));
    for (line, accesses) in &source.made {
        words += &format!("\n{}line {line} makes {accesses} of these accesses", question.front());
    }
    let end = question.answer(&words, fields, End::Answered)?;
    let speaks = |one: Model| expectations.iter().any(|expectation| expectation.speaks_of(one));
    let asked = Model::BOTH.into_iter().filter(|one| model.is_none_or(|model| model == *one) && speaks(*one));
    let sources = asked.map(|one| Accepted::of(&content, Some(one))).collect::<Vec<_>>();
    // a model that does not take the program keeps nothing from being told of the other
    let found = sources.iter().flatten().map(|source| Found::of(source, &expectations, asking)).collect::<Vec<_>>();
    let end = end.max(expected::tell_found(question, &found)?);
    sources.into_iter().find_map(Result::err).map_or(Ok(end), Err)
}

/// What is used, for the eye.
fn told(used: &Used) -> String {
    let Used { threads, instructions, accesses, locations, registers } = used;
    [
        format!("{threads} of {THREADS} threads"),
        format!("{instructions} of {INSTRUCTIONS} instructions in the longest"),
        format!("{accesses} of {ACCESSES} accesses ({ACCESSES_TSO} under --model tso)"),
        format!("{locations} of {LOCATIONS} locations"),
        format!("{registers} of {REGISTERS} registers"),
    ]
    .join(", ")
}

fn json(used: &Used) -> Json {
    let Used { threads, instructions, accesses, locations, registers } = used;
    let number = |number: &usize| Json::from(*number as u64);
    object([
        ("threads", number(threads)),
        ("instructions", number(instructions)),
        ("accesses", number(accesses)),
        ("locations", number(locations)),
        ("registers", number(registers)),
    ])
}
