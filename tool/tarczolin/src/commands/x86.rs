//! x86: what total store order adds to a program: executions, by their graphs, and outcomes, by final memory and whether they fail.
use super::arguments::Arguments;
use super::lacking::{comparable, lacking, Lack};
use super::lent::{memory, MEMORY};
use super::opt::Opt;
use super::relaxed::{first, Relaxed};
use super::reply::{each, Question, JSON};
use crate::accepted::Accepted;
use crate::end::End;
use crate::error::Error;
use crate::input;
use crate::json::{object, Json};
use crate::memory::Memory;
use crate::model::Model;

pub const OPTIONS: &[Opt] = &[MEMORY, JSON];

const NOTHING: &str =
    "x86 adds nothing: every execution under total store order is one of sequential consistency, and so is every outcome";
const NO_OUTCOME: &str =
    "x86 adds executions and no outcome: final memory, and whether it fails, is as under sequential consistency; registers \
may differ";
const OUTCOME: &str = "x86 adds an outcome: this execution under total store order ends as none of sequential consistency does";
const RELAXED: &str = "not robust: this execution under total store order is none of sequential consistency";
const THE_SAME: &str = "not robust: the same execution is the first that is none of sequential consistency";

pub fn run(arguments: &Arguments) -> Result<End, Error> {
    let memory = memory(arguments)?;
    each("x86", arguments, |question| {
        let content = input::content(question.file)?;
        let source = Accepted::of(&content, Some(Model::Tso))?;
        question.noted(&source.name, &source.notes)?;
        // that fences are left out under sequential consistency is no news where both models are asked about
        added(question, &Accepted::of(&content, Some(Model::Sc))?, &source, memory)
    })
}

/// What is added: is it robust, and is each outcome one of sequential consistency? Of a robust program each is, which is proved with that call.
fn added(question: &Question, strong: &Accepted, source: &Accepted, memory: Memory) -> Result<End, Error> {
    let programs = comparable(strong, source, false)?;
    let relaxed = first(source);
    let exceeding = relaxed.and_then(|_| lacking(&programs, memory));
    let lack = exceeding.map(|schedule| Lack::of(&programs, &schedule, memory));
    let same = relaxed.is_some() && relaxed == lack.as_ref().map(Lack::schedule);
    let shown = relaxed.map(|schedule| Relaxed::of(source, &schedule));
    let mut text = match (&shown, &lack) {
        (None, _) => format!("{NOTHING}\n"),
        (Some(_), None) => format!("{NO_OUTCOME}\n\n"),
        (Some(_), Some(lack)) => format!("{OUTCOME}\n\n{}\n", lack.told("under sequential consistency")),
    };
    if let Some(Relaxed { columns, circle, .. }) = &shown {
        text += &if same { format!("{THE_SAME}\n{circle}") } else { format!("{RELAXED}\n\n{columns}{circle}") };
    }
    let end = if shown.is_some() { End::Violation } else { End::Answered };
    let fields = [
        ("robust", shown.is_none().into()),
        ("covered", lack.is_none().into()),
        ("relaxed", shown.map_or(Json::Null, |relaxed| object(relaxed.fields))),
        ("added", lack.map_or(Json::Null, |lack| object(lack.json()))),
    ];
    question.answer_text(text, fields, end)
}
