//! graph: the graph of a full schedule, as a text, for Graphviz, or drawn.
use super::arguments::Arguments;
use super::models::model;
use super::record;
use super::reply::{asked, Question};
use crate::end::End;
use crate::error::Error;
use crate::execution::Execution;
use crate::graph::Graph;
use crate::html;
use crate::model::Model;
use crate::{ask, dot, output, refusal};

pub fn run(arguments: &Arguments) -> Result<End, Error> {
    arguments.one_of_these(&["--dot", "--svg", "--json"])?;
    let (name, schedule) = arguments.file_and_schedule()?;
    let schedule = schedule.ok_or(Error::Words)?;
    let model = model(arguments)?;
    asked(&Question::of("graph", arguments, name), |question| graph(question, arguments, model, &schedule))
}

fn graph(question: &Question, arguments: &Arguments, model: Model, schedule: &[u8]) -> Result<End, Error> {
    let source = question.source_under(model)?;
    let program = &source.program;
    let refused = |r| refusal::of_schedule(&source.name, program, schedule, r);
    let text = ask::graph(model, &source.file, schedule).map_err(refused)?;
    if arguments.flag("--dot") || arguments.flag("--svg") {
        let execution = Execution::replayed(&source.file, program, schedule).expect("the schedule is full");
        let drawn = if arguments.flag("--dot") { dot::text(&execution) } else { html::drawing(&execution) };
        return output::answer(drawn, End::Answered);
    }
    if question.json {
        let [reads, writes] = record::graph(&Graph::of_text(&text));
        let digits = crate::hex::digits(schedule);
        return output::answer(question.object([("schedule", digits.into()), reads, writes]), End::Answered);
    }
    output::answer(String::from_utf8_lossy(&text), End::Answered)
}
