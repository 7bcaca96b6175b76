//! fences: a least set of places for fences that makes a program keep under total store order what it keeps without its stores waiting.
use super::arguments::Arguments;
use super::expected::{asking, LIMIT};
use super::opt::Opt;
use super::reply::{asked, Question, JSON};
use crate::accepted::Accepted;
use crate::called::called;
use crate::decide::Asking;
use crate::end::End;
use crate::error::Error;
use crate::fences::{Least, Search, Set};
use crate::json::{list, object, Json};
use crate::model::Model;
use crate::program::ACCESSES_TSO;
use crate::{asm, input, program};
use std::ffi::OsStr;
use std::os::unix::ffi::OsStrExt;

pub const OPTIONS: &[Opt] = &[
    Opt {
        name: "--write",
        value: Some("OUT"),
        about: "the program with the first of these sets, into this file; .hex: as a program file",
    },
    LIMIT,
    JSON,
];

const NOTE: &str =
    "(which sets are asked for is chosen by plain Rust, which is not proved; whether an assertion fails with a set is the library's answer)";

pub fn run(arguments: &Arguments) -> Result<End, Error> {
    let [name] = arguments.files()?;
    let asking = asking(arguments, 1)?;
    asked(&Question::of("fences", arguments, name), |question| found(question, arguments.path("--write"), asking))
}

fn found(question: &Question, out: Option<&OsStr>, asking: Asking) -> Result<End, Error> {
    let content = input::content(question.file)?;
    let (text, lines) = content.text_form()?;
    question.noted(&content.name, &content.source(Some(Model::Tso))?.notes)?;
    let search = Search { name: &content.name, text: &text, asking };
    tarczolin_sys::note_interrupts();
    match search.least()? {
        Least::None(schedule) => {
            let words = format!(
                "no fences do it: under sequential consistency, where they mean nothing, {} is wrong too\n{NOTE}\n",
                schedule.told()
            );
            let fields = [
                ("sets", list(Vec::<Json>::new())),
                ("unfit", 0u64.into()),
                ("schedule", schedule.to_string().into()),
                ("written", Json::Null),
            ];
            question.answer_text(words, fields, End::Violation)
        }
        Least::Sets(sets, unfit) => {
            let written = out.map(|out| write(question, out, &content.name, &sets[0])).transpose()?;
            let words = sets.iter().map(|set| told(set, lines)).collect::<String>();
            let others = if sets[0].places.is_empty() { String::new() } else { contrary(&content)? };
            let others = match unfit {
                0 => others,
                _ => format!("{unfit} sets of as few fences or fewer do not fit the program, and are not asked for\n{others}"),
            };
            let tail = written.as_ref().map_or(String::new(), |name| format!("with the first of these in {name}\n"));
            let fields = [
                ("sets", list(sets.iter().map(json))),
                ("unfit", (unfit as u64).into()),
                ("schedule", Json::Null),
                ("written", written.into()),
            ];
            question.answer_text(format!("{words}{others}{tail}{NOTE}\n"), fields, End::Answered)
        }
    }
}

/// What the file expects to happen under total store order: with the fences it may not happen any more.
fn contrary(content: &input::Content) -> Result<String, Error> {
    let all = Accepted::of(content, Some(Model::Tso))?.expectations()?;
    let others = all.iter().filter(|one| one.speaks_of(Model::Tso) && !one.forbids());
    Ok(others
        .map(|one| format!("line {} has {}, and with fences that may not happen any more\n", one.line, one.under(Model::Tso)))
        .collect())
}

/// A set for the eye.
fn told(set: &Set, lines: &str) -> String {
    if set.places.is_empty() {
        return "no fence is needed\n".to_string();
    }
    let word = if set.fences == 1 { "fence" } else { "fences" };
    let place = |place: &asm::Place| format!("  in front of line {}{lines}: {}\n", place.line, place.statement);
    let all: String = set.places.iter().map(place).collect();
    format!("{} {word}, {} of {ACCESSES_TSO} accesses with them:\n{all}", set.fences, set.accesses)
}

fn json(set: &Set) -> Json {
    let place =
        |place: &asm::Place| object([("line", (place.line as u64).into()), ("statement", place.statement.as_str().into())]);
    object([
        ("fences", (set.fences as u64).into()),
        ("accesses", (set.accesses as u64).into()),
        ("places", list(set.places.iter().map(place))),
    ])
}

/// Writes the repaired program, as a text or as a program file with its remark lines; never over the program itself.
fn write(question: &Question, out: &OsStr, name: &str, set: &Set) -> Result<String, Error> {
    if out == "-" || input::is_input(out, question.file) {
        let message = "the repaired program would overwrite the program; name another file behind --write".to_string();
        let stream = "--write takes the name of a file".to_string();
        return Err(Error::Unfit { name: name.to_string(), message: if out == "-" { stream } else { message } });
    }
    let bytes = match out.as_bytes().ends_with(b".hex") {
        true => {
            let made = asm::assemble(&set.text).map_err(|marks| Error::Text { name: name.to_string(), marks })?;
            let file = asm::remarked(&program::frames(&made.file).expect("frames only"), &made.names, &made.remarks);
            if asm::said(&file, false).len() < made.said.len() {
                let message =
                    "with its remark lines the program file would be too long, and what is expected stands in them".to_string();
                return Err(Error::Unfit { name: name.to_string(), message });
            }
            file
        }
        false => set.text.clone(),
    };
    std::fs::write(out, bytes).map_err(|cause| Error::File { name: called(out), cause })?;
    Ok(called(out))
}
