//! force: which side can force its end, and one play in which it does.
use super::arguments::Arguments;
use super::lent::{memory, MEMORY};
use super::opt::Opt;
use super::record;
use super::reply::{asked, Question, JSON};
use crate::ask::{self, Force};
use crate::end::End;
use crate::error::Error;
use crate::execution::Execution;
use crate::json::{list, Json};
use crate::memory::Memory;
use crate::model::Model;
use crate::near::hint;
use crate::play::play;
use crate::program::Program;
use crate::progress::waiting;
use crate::refusal;
use crate::show::{columns, By};

pub const OPTIONS: &[Opt] = &[
    Opt { name: "--hostile", value: Some("THREADS"), about: "the hostile threads, by number or name: 0,2; '' is no thread" },
    Opt { name: "--play", value: None, about: "one play in which the winner follows its strategy, in two columns" },
    MEMORY,
    JSON,
];

pub fn run(arguments: &Arguments) -> Result<End, Error> {
    let [name] = arguments.files()?;
    let Some(threads) = arguments.option("--hostile")? else {
        return Err(Error::usage("force needs --hostile THREADS, as in --hostile 0,2"));
    };
    let memory = memory(arguments)?;
    asked(&Question::of("force", arguments, name), |question| forced(question, threads, arguments.flag("--play"), memory))
}

/// The set of these threads, by number or by name.
fn set(program: &Program, threads: &str) -> Result<u8, Error> {
    let mut set = 0;
    for word in threads.split(',').map(str::trim).filter(|word| !word.is_empty()) {
        set |= 1 << thread(program, word)?;
    }
    Ok(set)
}

/// The thread of this number or name. That the program has no thread of a number up to 7 is the library's to say.
fn thread(program: &Program, word: &str) -> Result<u8, Error> {
    let named = program.numbers().find(|&t| program.names.thread(t) == word || format!("T{t}") == word);
    let numbered = word.parse().ok().filter(|t| *t < 8);
    named.or(numbered).ok_or_else(|| {
        let names: Vec<String> = program.numbers().map(|t| program.names.thread(t)).collect();
        let hint = hint(word, names.iter().map(String::as_str));
        let all = if names.is_empty() { "none".to_string() } else { format!("{}, numbered from 0", names.join(", ")) };
        let them = if hint.is_empty() { format!("; the program has {all}") } else { hint };
        Error::usage(format!("--hostile: there is no thread {word}{them}"))
    })
}

fn forced(question: &Question, threads: &str, wanted: bool, memory: Memory) -> Result<End, Error> {
    let source = question.source()?;
    let program = &source.program;
    let set = set(program, threads)?;
    let answer = waiting(|| ask::force(&source.file, set, &mut memory.lent(Model::Sc, program)));
    let answer = answer.map_err(|r| refusal::of_threads(&source.name, &source.file, program.threads.len(), r))?;
    let (words, side, step) = told(program, answer);
    let end = if side == "hostile" { End::Violation } else { End::Answered };
    let fields = [("hostile", list(members(set).map(Json::from))), ("forces", side.into()), ("first", step.into())];
    if !wanted {
        return question.answer(&words, fields, end);
    }
    let schedule = waiting(|| play(program, set, memory));
    let execution = Execution::replayed(&source.file, program, &schedule).expect("a play is a full schedule");
    assert_eq!(execution.fails, side == "hostile", "the winner of the play is the library's");
    let [hostile, forces, first] = fields;
    let [_, schedule, fails, _, steps, at_once, memory, registers] = record::execution(&execution);
    let text = format!("{words}\n{}\n{}", divided(program, set, side), columns(&execution, By::Time));
    question.answer_text(text, [hostile, forces, first, schedule, fails, steps, at_once, memory, registers], end)
}

/// The answer for the eye, the side, and its first step.
fn told(program: &Program, answer: Force) -> (String, &'static str, Option<u8>) {
    match answer {
        Force::Hostile(Some(t)) => {
            (format!("hostile can force the failure: first step {t:02x}, {}", program.names.thread(t)), "hostile", Some(t))
        }
        Force::Hostile(None) => ("hostile can force the failure: it has no step and passes first".to_string(), "hostile", None),
        Force::Friendly => ("friendly can force that nothing fails".to_string(), "friendly", None),
    }
}

/// The threads in the set, ascending.
fn members(set: u8) -> impl Iterator<Item = u8> {
    (0..8).filter(move |t| set >> t & 1 == 1)
}

/// Who has which threads, above a play.
fn divided(program: &Program, set: u8, winner: &str) -> String {
    let of = |hostile: bool| {
        let threads = program.numbers().filter(|t| (set >> t & 1 == 1) == hostile);
        let names: Vec<String> = threads.map(|t| program.names.thread(t)).collect();
        if names.is_empty() {
            "none".to_string()
        } else {
            names.join(", ")
        }
    };
    format!(
        "hostile: {}; friendly: {}; a play in which {winner} follows its strategy (the library is asked at each turn):",
        of(true),
        of(false)
    )
}
