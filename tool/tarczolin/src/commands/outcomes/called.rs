//! The outcomes as the library tells them: final memory, whether it fails, and the first listed schedule that ends so.
use crate::accepted::Accepted;
use crate::ask::{self, Attained, Outcome};
use crate::commands::piece::{self, Found, Piece};
use crate::commands::record;
use crate::commands::reply::Question;
use crate::end::End;
use crate::error::Error;
use crate::jobs::List;
use crate::outcome::{Condition, Final};
use crate::output;
use crate::program::Program;
use crate::show::memory_line;
use std::collections::BTreeSet;
use tarczolin_sys::Scratch;

/// By more than one job the list is walked, and that is said.
const WALKED: &str =
    "(found by plain Rust over the list, which is not proved; the list is, and so are the outcomes by one job)\n";
const FURTHER: &str = "(--registers: with registers; --count: how many executions end so)\n";

/// All that were found, and what Ctrl-C came before.
struct All {
    attained: Vec<Attained>,
    cut: Option<Box<Found>>,
    walked: bool,
}

pub fn outcomes(question: &Question, source: &Accepted, piece: &Piece, condition: Option<&Condition>) -> Result<End, Error> {
    let list = List::of(source, true);
    let all = if piece.jobs == 1 { called(&list, piece) } else { walked(&list, piece) };
    if let Some(found) = &all.cut {
        // the outcomes of what is left cannot be put together with these
        piece::tell_interrupted(found.counts, None);
    }
    let holds = |attained: &&Attained| condition.is_none_or(|condition| condition.holds_of(&attained.outcome));
    let chosen: Vec<&Attained> = all.attained.iter().filter(holds).collect();
    let mut text = if question.json { String::new() } else { question.heading() };
    text.extend((1u64..).zip(&chosen).map(|(number, attained)| told(question, &source.program, number, attained)));
    text += &last_line(question, &all, chosen.len(), condition.is_some());
    let failing = all.attained.iter().filter(|attained| attained.outcome.fails).count();
    let bad = if condition.is_some() { chosen.len() } else { failing } as u64;
    output::answer(text, if all.cut.is_some() { End::of_cut(bad) } else { End::of_failing(bad) })
}

/// By the library's call. Of one that was interrupted nothing is known.
fn called(list: &List, piece: &Piece) -> All {
    let model = piece.model;
    let scratch = piece.memory.for_outcomes(model, list.program);
    match piece::answered(list, scratch, false, move |file: &[u8], scratch: &Scratch| ask::outcomes(model, file, scratch)) {
        Ok(attained) => All { attained: attained.expect("the file is accepted"), cut: None, walked: false },
        Err(found) => All { attained: Vec::new(), cut: Some(found), walked: false },
    }
}

/// By a walk over the list in pieces, which come in order: the first that ends so is the first of all.
fn walked(list: &List, piece: &Piece) -> All {
    let (mut met, mut attained) = (BTreeSet::new(), Vec::new());
    let found = piece::walk(list, piece.jobs, piece.memory, |part| {
        for listed in &part.listed {
            let outcome = Outcome { memory: Final::of(list.program, &listed.schedule).memory, fails: listed.fails };
            if met.insert(outcome) {
                attained.push(Attained { outcome, first: listed.schedule });
            }
        }
        Ok(())
    });
    All { attained, cut: found.cut.then(|| Box::new(found)), walked: true }
}

/// One outcome.
fn told(question: &Question, program: &Program, number: u64, Attained { outcome, first }: &Attained) -> String {
    if question.json {
        return question.object([
            ("outcome", number.into()),
            ("schedule", first.to_string().into()),
            ("fails", outcome.fails.into()),
            record::memory(program, &outcome.memory),
        ]);
    }
    let fails = if outcome.fails { ", fails" } else { "" };
    format!("outcome {number}: first {}{fails}\n{}\n", first.told(), memory_line(program, &outcome.memory))
}

/// How many there are, and of how many.
fn last_line(question: &Question, all: &All, chosen: usize, asked: bool) -> String {
    let (known, failing) = (all.attained.len(), all.attained.iter().filter(|attained| attained.outcome.fails).count());
    if question.json {
        return question.object([
            ("outcomes", (chosen as u64).into()),
            ("failing_outcomes", (failing as u64).into()),
            ("of_outcomes", (known as u64).into()),
            ("interrupted", all.cut.is_some().into()),
        ]);
    }
    if all.cut.is_some() && !all.walked {
        return String::new();
    }
    let word = |number: usize| if number == 1 { "outcome" } else { "outcomes" };
    let so_far = if all.cut.is_some() { " so far" } else { "" };
    let said = match asked {
        true => format!("{chosen} of {known} {} {}{so_far}\n", word(known), if chosen == 1 { "matches" } else { "match" }),
        false => format!("{known} {}, {failing} failing{so_far}\n", word(known)),
    };
    said + if all.walked { WALKED } else { FURTHER }
}
