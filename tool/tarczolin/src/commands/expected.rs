//! Whether what a file expects of its program holds: told behind the answers of check, outcomes and violation.
use super::arguments::Arguments;
use super::lent::memory;
use super::opt::Opt;
use super::reply::Question;
use crate::accepted::Accepted;
use crate::decide::{by_answers, decide, Asking, Decided, Decision, Looked, Shown, Verdict};
use crate::end::End;
use crate::error::Error;
use crate::expect::{Expectation, Kind};
use crate::json::Json;
use crate::model::Model;
use crate::note::Note;
use crate::output;
use crate::program::Instruction;

/// So many listed executions are looked at where nothing else is said.
pub const MOST: u64 = 1_000_000;

pub const LIMIT: Opt = Opt {
    name: "--limit",
    value: Some("N"),
    about: "at most so many listed executions are looked at where what the file expects speaks of registers or of one thread's failure; \
            1000000 where it is not given",
};

/// What is said of what the library's outcomes and failures decide, and of what a walk over the list does.
const BY_CALLS: &str =
    "which outcomes there are and what fails first are the library's answers; that a condition fits an outcome is found by \
plain Rust, which is not proved";
const BY_LIST: &str =
    "what speaks of registers or of one thread's failure is decided by plain Rust over the list, which is not proved; the list is";
const BESIDE: &str =
    "where the library's outcomes took long, plain Rust over the list decided before them, which is not proved; the list is";

/// How expectations are decided: by so many jobs where the list is walked, over so many executions.
pub fn asking(arguments: &Arguments, jobs: usize) -> Result<Asking, Error> {
    let limit = if arguments.flag(LIMIT.name) { arguments.number(LIMIT.name, u64::MAX)? } else { MOST };
    Ok(Asking { jobs, limit, memory: memory(arguments)?, quiet: false })
}

/// What is said of what was decided, by how that was done: nothing where nothing was.
pub fn notes<'a>(all: impl Iterator<Item = &'a Found>) -> Vec<&'static str> {
    let (mut calls, mut list, mut beside) = (false, false, false);
    for (one, decision) in all.flat_map(|found| found.all.iter().zip(&found.decided.all)) {
        match decision.looked {
            Looked::Listed(_) if by_answers(one) => beside = true,
            Looked::Listed(_) => list = true,
            _ => calls = true,
        }
    }
    [(calls, BY_CALLS), (beside, BESIDE), (list, BY_LIST)].into_iter().filter(|(is, _)| *is).map(|(_, note)| note).collect()
}

/// Expectations of a program under one model, with what was found of them.
pub struct Found {
    pub all: Vec<Expectation>,
    pub model: Model,
    pub decided: Decided,
    /// Some assertion stands in the program: without one that none fails says little.
    asserts: bool,
}

impl Found {
    /// Those of these that speak of the program's model, decided.
    pub fn of(source: &Accepted, all: &[Expectation], asking: Asking) -> Found {
        let model = source.program.model;
        let all: Vec<Expectation> = all.iter().filter(|one| one.speaks_of(model)).cloned().collect();
        tarczolin_sys::note_interrupts();
        let decided = decide(source, &all.iter().collect::<Vec<_>>(), asking);
        let asserts = source.program.threads.iter().flatten().any(Instruction::is_assertion);
        Found { all, model, decided, asserts }
    }

    pub fn decisions(&self) -> impl Iterator<Item = (&Expectation, Decision)> {
        self.all.iter().zip(self.decided.all.iter().copied())
    }

    pub fn end(&self) -> End {
        let end = |one: &Decision| match one.verdict {
            Verdict::Holds(_) => End::Answered,
            Verdict::Fails(_) => End::Violation,
            Verdict::Open => End::Refused,
        };
        self.decided.all.iter().map(end).max().unwrap_or(End::Answered)
    }

    /// One of them for the eye.
    pub fn told(&self, one: &Expectation, decision: Decision) -> String {
        format!("line {}: {}: {}", one.line, one.under(self.model), self.words(one, decision))
    }

    /// That there is no execution which decides, in words.
    fn none(&self, one: &Expectation, looked: Looked) -> String {
        match (&one.kind, looked) {
            (Kind::Violation | Kind::NoViolation, _) if !self.asserts => "the program asserts nothing".to_string(),
            (Kind::Violation | Kind::NoViolation, _) => "no execution fails".to_string(),
            (Kind::Forall(_), Looked::Listed(walked)) => format!("all of {walked} listed end so"),
            (_, Looked::Listed(walked)) => format!("none of {walked} listed ends so"),
            (Kind::Forall(_), Looked::Outcomes(1)) => "the only outcome is so".to_string(),
            (_, Looked::Outcomes(1)) => "the only outcome is not so".to_string(),
            (Kind::Forall(_), Looked::Outcomes(all)) => format!("all of {all} outcomes are so"),
            (_, Looked::Outcomes(all)) => format!("none of {all} outcomes is so"),
            (_, Looked::Failures) => "no execution is so".to_string(),
        }
    }

    fn words(&self, one: &Expectation, Decision { verdict, looked }: Decision) -> String {
        match (verdict, looked) {
            (Verdict::Holds(Some(shown)), _) => format!("holds, first by {}", first(&shown)),
            (Verdict::Holds(None), _) => format!("holds: {}", self.none(one, looked)),
            (Verdict::Fails(Some(shown)), _) => format!("FAILS, first by {}", first(&shown)),
            (Verdict::Fails(None), _) => format!("FAILS: {}", self.none(one, looked)),
            (Verdict::Open, Looked::Listed(walked)) if self.decided.cut => {
                format!("not decided: interrupted behind {walked} listed")
            }
            (Verdict::Open, Looked::Listed(walked)) => {
                format!("not decided: more than {walked} are listed; a greater number behind --limit looks at more")
            }
            (Verdict::Open, _) => "not decided: interrupted".to_string(),
        }
    }

    /// The fields of one of them.
    pub fn fields(&self, one: &Expectation, decision: Decision) -> [(&'static str, Json); 6] {
        let (holds, shown) = match decision.verdict {
            Verdict::Holds(shown) => (Some(true), shown),
            Verdict::Fails(shown) => (Some(false), shown),
            Verdict::Open => (None, None),
        };
        let walked = if let Looked::Listed(walked) = decision.looked { Some(walked) } else { None };
        [
            ("expectation", one.text.as_str().into()),
            ("line", (one.line as u64).into()),
            ("model", self.model.word().into()),
            ("holds", holds.into()),
            ("schedule", shown.map(|shown| shown.schedule.to_string()).into()),
            ("walked", walked.into()),
        ]
    }
}

fn first(shown: &Shown) -> String {
    let by = if shown.exchanged { ", with alike threads exchanged" } else { "" };
    format!("{}{by}", shown.schedule.told())
}

/// Decides what is expected of a program under its model, tells it, and says how that ends.
pub fn tell(question: &Question, source: &Accepted, all: &[Expectation], asking: Asking) -> Result<End, Error> {
    tell_found(question, &[Found::of(source, all, asking)])
}

/// Tells what was found under each model, and says how that ends.
pub fn tell_found(question: &Question, all: &[Found]) -> Result<End, Error> {
    let mut text = String::new();
    for found in all {
        for (one, decision) in found.decisions() {
            text += &match question.json {
                true => question.object(found.fields(one, decision)),
                false => format!("{}{}\n", question.front(), found.told(one, decision)),
            };
        }
    }
    if !question.json {
        text.extend(notes(all.iter()).iter().map(|note| format!("{}({note})\n", question.front())));
    }
    output::answer(text, all.iter().map(Found::end).max().unwrap_or(End::Answered))
}

/// Says in front of the answer how many expectations speak of another model alone, which is not asked about here.
pub fn note_others(question: &Question, source: &Accepted, all: &[Expectation], model: Model) -> Result<(), Error> {
    let others = all.iter().filter(|one| !one.speaks_of(model)).count();
    let (word, verb) = if others == 1 { ("expectation", "speaks") } else { ("expectations", "speak") };
    let note = Note::Note(format!("{others} {word} {verb} of another model, and nothing is said of it here"));
    question.noted(&source.name, if others > 0 { std::slice::from_ref(&note) } else { &[] })
}
