//! The ends of the listed executions by a walk over the list: with registers or without, how many end so, how many executions these stand for, and
//! the first. How executions end is replayed in plain Rust, which is not proved.
use crate::accepted::Accepted;
use crate::ask::{self, Listed};
use crate::commands::piece::{self, Found, Piece};
use crate::commands::record;
use crate::commands::reply::Question;
use crate::end::End;
use crate::error::Error;
use crate::execution::Execution;
use crate::jobs::List;
use crate::json::list as json_list;
use crate::outcome::{exchanges, Condition, Exchange, Final};
use crate::output;
use crate::program::Program;
use crate::schedule::Schedule;
use crate::show::{end_lines, memory_line};
use std::collections::BTreeMap;

const WALKED: &str =
    "(how executions end, and how many, is found by plain Rust over the list, which is not proved; the list is)\n";

/// Which ends are told apart.
#[derive(Clone, Copy, PartialEq, Eq)]
pub enum Apart {
    /// By final memory and whether it fails, as the library's outcomes are.
    ByMemory,
    /// Also by registers, and by which threads fail and where.
    ByRegisters,
}

/// Executions that end alike: so many, how many executions they stand for, and the first of them.
struct Outcome {
    end: Final,
    listed: u64,
    executions: u64,
    first: Schedule,
}

/// What tells an end from others: whether it fails, and final memory alone or all of it.
type Key = (bool, [u32; 8], Option<Final>);

/// The outcomes of a list, in the order of their first executions.
struct Outcomes {
    apart: Apart,
    all: Vec<Outcome>,
    /// What all of them stand for.
    executions: u64,
    places: BTreeMap<Key, usize>,
}

impl Outcomes {
    fn new(apart: Apart) -> Outcomes {
        Outcomes { apart, all: Vec::new(), executions: 0, places: BTreeMap::new() }
    }

    fn add(&mut self, list: &List, listed: &Listed) {
        let end = Final::of(list.program, &listed.schedule);
        let executions =
            ask::class(list.program.model, list.file, &listed.schedule).expect("a listed schedule of an accepted file is full");
        let next = self.all.len();
        let whole = (self.apart == Apart::ByRegisters).then(|| end.clone());
        let place = *self.places.entry((listed.fails, end.memory, whole)).or_insert(next);
        if place == next {
            self.all.push(Outcome { end, listed: 0, executions: 0, first: listed.schedule });
        }
        self.all[place].listed += 1;
        self.all[place].executions += executions;
        self.executions += executions;
    }

    /// Those for which a condition holds, as they are or with alike threads exchanged: then by the first exchange that does.
    fn matching(self, program: &Program, condition: &Condition) -> Vec<(Outcome, bool)> {
        let exchanges = exchanges(program);
        let moved = |outcome: Outcome| {
            let holds = |exchange: &&Exchange| condition.holds(&exchange.end(&outcome.end));
            let exchange = exchanges.iter().find(holds)?;
            let end = exchange.end(&outcome.end);
            let first = exchange.schedule(&outcome.first);
            Some((Outcome { end, first, ..outcome }, !exchange.is_identity()))
        };
        self.all.into_iter().filter_map(moved).collect()
    }
}

pub fn ends(
    question: &Question,
    source: &Accepted,
    piece: &Piece,
    condition: Option<&Condition>,
    apart: Apart,
) -> Result<End, Error> {
    let list = piece.list(List::of(source, true))?;
    let mut all = Outcomes::new(apart);
    let found = piece::walk(&list, piece.jobs, piece.memory, |part| {
        part.listed.iter().for_each(|listed| all.add(&list, listed));
        Ok(())
    });
    if found.cut {
        // the outcomes of what is left cannot be put together with these
        piece::tell_interrupted(found.counts, None);
    }
    let executions = all.executions;
    let chosen = match condition {
        None => all.all.into_iter().map(|outcome| (outcome, false)).collect(),
        Some(condition) => all.matching(list.program, condition),
    };
    let matched = chosen.iter().map(|(outcome, _)| outcome.listed).sum();
    let mut text = if question.json { String::new() } else { question.heading() };
    for (number, (outcome, exchanged)) in (1u64..).zip(&chosen) {
        text += &match apart {
            Apart::ByRegisters => told(question, &list, number, outcome, *exchanged),
            Apart::ByMemory => counted(question, &list, number, outcome),
        };
    }
    let matching = condition.is_some().then_some(matched);
    text += &last_line(question, &list, &found, chosen.len() as u64, executions, matching);
    let bad = if condition.is_some() { matched } else { found.counts.failing };
    output::answer(text, if found.cut { End::of_cut(bad) } else { End::of_failing(bad) })
}

/// One outcome of final memory alone.
fn counted(question: &Question, list: &List, number: u64, outcome: &Outcome) -> String {
    let Outcome { end, listed, executions, first } = outcome;
    if question.json {
        return question.object([
            ("outcome", number.into()),
            ("listed", (*listed).into()),
            ("executions", (*executions).into()),
            ("schedule", first.to_string().into()),
            ("fails", end.fails().into()),
            record::memory(list.program, &end.memory),
        ]);
    }
    let (in_all, fails) = (in_all(list, *executions), if end.fails() { ", fails" } else { "" });
    let memory = memory_line(list.program, &end.memory);
    format!("outcome {number}: {listed} listed{in_all}, first {}{fails}\n{memory}\n", first.told())
}

/// One outcome.
fn told(question: &Question, list: &List, number: u64, outcome: &Outcome, exchanged: bool) -> String {
    let execution = Execution::replayed(list.file, list.program, &outcome.first).expect("a full schedule");
    let Outcome { end, listed, executions, first } = outcome;
    let failures = end.failed.iter().enumerate().filter_map(|(t, failed)| Some((t as u8, (*failed)?)));
    let failures: Vec<String> = failures
        .map(|(t, failed)| {
            let names = &list.program.names;
            let line = names.written(t, failed.at).map_or(String::new(), |written| format!(", line {}", written.line));
            format!("{}: {} (instruction {}{line})", names.thread(t), execution.failure(t, &failed), failed.at)
        })
        .collect();
    if question.json {
        let [memory, registers] = record::values(&execution);
        return question.object([
            ("outcome", number.into()),
            ("listed", (*listed).into()),
            ("executions", (*executions).into()),
            ("schedule", first.to_string().into()),
            ("exchanged", exchanged.into()),
            ("fails", end.fails().into()),
            ("failures", json_list(failures)),
            memory,
            registers,
        ]);
    }
    let by = if exchanged { ", with alike threads exchanged" } else { "" };
    let failed: String = failures.iter().map(|failure| format!("fails      {failure}\n")).collect();
    let first = first.told();
    let in_all = in_all(list, *executions);
    format!("outcome {number}: {listed} listed{in_all}, first {first}{by}\n{}{failed}\n", end_lines(&execution))
}

/// How many executions these stand for, where threads are declared alike; else each stands for itself.
fn in_all(list: &List, executions: u64) -> String {
    match list.program.alike.is_empty() {
        true => String::new(),
        false => format!(", {executions} in all"),
    }
}

fn last_line(question: &Question, list: &List, found: &Found, outcomes: u64, executions: u64, matched: Option<u64>) -> String {
    let counts = found.counts;
    if question.json {
        return question.object([
            ("outcomes", outcomes.into()),
            ("listed", counts.listed.into()),
            ("failing", counts.failing.into()),
            ("executions", executions.into()),
            ("matching", matched.into()),
            ("interrupted", found.cut.into()),
        ]);
    }
    let matching = matched.map_or(String::new(), |matched| format!(", {matched} matching"));
    let word = if outcomes == 1 { "outcome" } else { "outcomes" };
    let in_all = in_all(list, executions);
    format!("{outcomes} {word}, {} listed, {} failing{in_all}{matching}\n{WALKED}", counts.listed, counts.failing)
}
