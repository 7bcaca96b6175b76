//! covers: whether each outcome of one program, its final memory and whether it fails, is one of another; each under its own memory model.
use super::arguments::Arguments;
use super::lacking::{comparable, lacking, Lack};
use super::lent::{memory, MEMORY};
use super::models::{under, UNDER};
use super::opt::Opt;
use super::reply::{asked, Question, JSON};
use crate::accepted::Accepted;
use crate::called::recorded;
use crate::end::End;
use crate::error::Error;
use crate::json::{list, Json};
use crate::memory::Memory;
use crate::model::Model;
use crate::output;

pub const OPTIONS: &[Opt] = &[
    Opt {
        name: "--by",
        value: Some("name|number"),
        about: "which locations are the same: by name where they have any, or by number",
    },
    UNDER,
    MEMORY,
    JSON,
];

/// What is asked beside the two files.
#[derive(Clone, Copy)]
struct Asking {
    by_number: bool,
    /// First the model of OLD, then that of NEW; none where nothing is said of them.
    under: Option<[Model; 2]>,
    memory: Memory,
}

impl Asking {
    fn models(self) -> [Model; 2] {
        self.under.unwrap_or_default()
    }

    /// The name of a program, with its model where models were named.
    fn named(self, name: &str, which: usize) -> String {
        self.under.map_or(name.to_string(), |models| format!("{name} under {}", models[which].name()))
    }
}

pub fn run(arguments: &Arguments) -> Result<End, Error> {
    let [old, new] = arguments.files()?;
    let by_number = arguments.one_of("--by", &[("name", false), ("number", true)], false)?;
    let asking = Asking { by_number, under: under(arguments)?, memory: memory(arguments)? };
    let newer = Question::of("covers", arguments, new);
    asked(&Question::of("covers", arguments, old), |question| {
        let first = question.source_under(asking.models()[0])?;
        asked(&newer, |newer| compared([question, newer], &first, asking))
    })
}

fn compared(questions: [&Question; 2], first: &Accepted, asking: Asking) -> Result<End, Error> {
    let [question, newer] = questions;
    let second = newer.source_under(asking.models()[1])?;
    let programs = comparable(first, &second, asking.by_number)?;
    let front = [("new", recorded(newer.file).into()), ("under", list(asking.models().map(|model| Json::from(model.word()))))];
    match lacking(&programs, asking.memory) {
        None => {
            let [new, under] = front;
            let words = match asking.under {
                None => "covered".to_string(),
                Some(_) => {
                    let [from, to] = [asking.named(&first.name, 0), asking.named(&second.name, 1)];
                    format!("covered: each outcome of {to} is one of {from}")
                }
            };
            question.answer(&words, [new, under, ("covered", true.into())], End::Answered)
        }
        Some(schedule) => uncovered(question, front, asking, &Lack::of(&programs, &schedule, asking.memory)),
    }
}

/// The execution of the second program, its outcome, and the outcomes of the first; both by the same names.
fn uncovered(question: &Question, front: [(&'static str, Json); 2], asking: Asking, lack: &Lack) -> Result<End, Error> {
    if question.json {
        let [new, under] = front;
        let [schedule, fails, outcome, outcomes, steps, at_once, memory, registers] = lack.json();
        let covered = ("covered", false.into());
        let fields = [new, under, covered, schedule, fails, outcome, outcomes, steps, at_once, memory, registers];
        return output::answer(question.object(fields), End::Violation);
    }
    let [from, to] = [asking.named(&lack.old.name, 0), asking.named(&lack.new.name, 1)];
    let text = format!("not covered: {to} has an outcome that {from} lacks\n\n{}", lack.told(&format!("of {from}")));
    output::answer(text, End::Violation)
}
