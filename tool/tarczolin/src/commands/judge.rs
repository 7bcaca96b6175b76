//! judge: can this graph happen? A no is explained.
use super::arguments::Arguments;
use super::reply::{asked, Question};
use crate::accepted::Accepted;
use crate::called::called;
use crate::end::End;
use crate::error::Error;
use crate::graph::{Event, Graph, Order};
use crate::input;
use crate::json::{list, object, Json};
use crate::program::Program;
use crate::schedule::Schedule;
use crate::why::{places, why, Edge, Why};
use crate::{ask, refusal};
use std::ffi::OsStr;

pub fn run(arguments: &Arguments) -> Result<End, Error> {
    let [name, graph] = arguments.files()?;
    asked(&Question::of("judge", arguments, name), |question| judged(question, graph))
}

fn judged(question: &Question, graph: &OsStr) -> Result<End, Error> {
    let source = question.source()?;
    let text = input::text(graph)?;
    let answer = ask::judge(&source.file, &text);
    match answer.map_err(|r| refusal::of_graph([&source.name, &called(graph)], &source.file, &text, r))? {
        Some(schedule) => yes(question, graph, &schedule),
        None => no(question, graph, &source, &text),
    }
}

fn yes(question: &Question, graph: &OsStr, schedule: &Schedule) -> Result<End, Error> {
    let possible = [
        ("graph", graph.to_string_lossy().into_owned().into()),
        ("possible", true.into()),
        ("schedule", schedule.to_string().into()),
    ];
    question.answer(&format!("yes {}", schedule.told()), possible, End::Answered)
}

fn no(question: &Question, graph: &OsStr, source: &Accepted, text: &[u8]) -> Result<End, Error> {
    let program = &source.program;
    let made = Graph::of_text(text);
    let why = why(program, &made);
    let words = why.as_ref().map_or(String::new(), |why| told(program, &made, why));
    let fields = [
        ("graph", graph.to_string_lossy().into_owned().into()),
        ("possible", false.into()),
        ("why", why.as_ref().map(why_json).into()),
    ];
    question.answer(&format!("no{words}"), fields, End::Violation)
}

/// An order's name, in words and for programs.
fn order(order: Order) -> (&'static str, &'static str) {
    match order {
        Order::Program => ("program order", "po"),
        Order::ReadsFrom => ("reads from", "rf"),
        Order::Coherence => ("coherence", "co"),
        Order::FromReads => ("from reads", "fr"),
    }
}

/// The explanation for the eye.
pub fn told(program: &Program, graph: &Graph, why: &Why) -> String {
    const NOTE: &str = "(explained by plain Rust, which is not proved; the answer is)";
    let (names, places) = (&program.names, places(program, graph));
    // the statement as it is written, with its line; of a program file the instruction
    let statement = |event: Event| {
        let at = *places.get(&event)?;
        let instruction = || names.statement_at(event.t, at, &program.threads[event.t as usize][at]);
        Some(format!(" ({})", names.written(event.t, at).map_or_else(instruction, ToString::to_string)))
    };
    let event = |event: Event| format!("{} #{}{}", names.thread(event.t), event.i, statement(event).unwrap_or_default());
    match why {
        Why::Misfit(message) => format!("\nthe program does not make this graph: {message} {NOTE}"),
        Why::Cycle(edges) => {
            let line = |edge: &Edge| format!("\n  {} before {}: {}", event(edge.from), event(edge.to), order(edge.order).0);
            format!("\nthese go in a circle {NOTE}:{}", edges.iter().map(line).collect::<String>())
        }
    }
}

/// The explanation for programs.
pub fn why_json(why: &Why) -> Json {
    let event = |event: Event| object([("thread", event.t.into()), ("access", event.i.into())]);
    match why {
        Why::Misfit(message) => object([("kind", "misfit".into()), ("message", message.as_str().into())]),
        Why::Cycle(edges) => {
            let edge =
                |edge: &Edge| object([("from", event(edge.from)), ("order", order(edge.order).1.into()), ("to", event(edge.to))]);
            object([("kind", "cycle".into()), ("edges", list(edges.iter().map(edge)))])
        }
    }
}
