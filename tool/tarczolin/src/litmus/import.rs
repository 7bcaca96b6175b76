//! From a litmus test to the text form. What is made is assembled and accepted before anybody sees it, and what has no place is an error
//! with its line and column: no instruction is dropped without a word.
use super::answers::{answers, expected, Answer};
use super::cell::{cell, Cell};
use super::condition::condition;
use super::part::{Part, MOST};
use super::parts::{parts, without_remarks, Parts};
use super::starts::{starts, Place, Start};
use super::thread::{Line, Thread};
use crate::asm::{self, Wrong};
use crate::error::Mark;
use crate::outcome::Condition;
use crate::program::Program;
use std::collections::BTreeSet;

/// A test in the text form, and for each of its lines the place in the test that it comes from, line and column from 1.
#[derive(Clone, Debug, PartialEq, Eq)]
pub struct Imported {
    pub form: String,
    pub places: Vec<(usize, usize)>,
}

/// The text form of a test, with what it expects as remarks; or all that does not fit, each with its place.
pub fn import(text: &str) -> Result<Imported, Vec<Mark>> {
    let text = text.strip_prefix('\u{feff}').unwrap_or(text);
    let made = without_remarks(text).map_err(|one| vec![one]).and_then(|bare| {
        let answers = answers(text).map_err(|one| vec![one])?;
        let parts = parts(&bare).map_err(|one| vec![one])?;
        form(&parts, &answers)
    });
    made.map_err(|mut wrong| {
        wrong.sort();
        wrong.into_iter().map(|one| asm::mark(text.as_bytes(), one)).collect()
    })
}

/// More cells are not read of a thread: no program has so many instructions, whatever labels and comparisons take.
const CELLS: usize = 64;

/// The threads: the head of each, and its cells that are not empty.
type Threads<'a> = Vec<(Part<'a>, Vec<Cell<'a>>)>;

fn form(parts: &Parts, answers: &[Answer]) -> Result<Imported, Vec<Wrong>> {
    let (starts, mut wrong) = starts(parts.initial);
    let threads = threads(parts.code, &mut wrong);
    wrong.extend(starts.iter().filter_map(|start| without_thread(start, threads.len())));
    if !wrong.is_empty() {
        return Err(wrong);
    }
    let named: BTreeSet<String> = threads.iter().flat_map(|(_, cells)| cells).filter_map(|cell| cell.location.clone()).collect();
    let begun = starts.iter().filter_map(|start| if let Place::Location(l) = &start.place { Some(l.clone()) } else { None });
    let known: BTreeSet<String> = named.iter().cloned().chain(begun).collect();
    let asked = condition(parts.condition, &known).map_err(|one| vec![one])?;
    let line = |text: String, part| Line { text, part };
    let mut lines = vec![line(name_line(parts.name.text()), parts.name)];
    let expected = expected(parts.quantifier, &asked.text, answers);
    lines.extend(expected.into_iter().map(|text| line(text, parts.condition)));
    for start in &starts {
        let Place::Location(l) = &start.place else { continue };
        // 0 needs no statement, but for a location that only the condition names
        if !start.is_zero() || (asked.locations.contains(l) && !named.contains(l)) {
            lines.push(line(format!("init {l} {}", start.value), start.part));
        }
    }
    let old = old(&known);
    for (number, (head, cells)) in threads.iter().enumerate() {
        let registers = asked.registers.iter().filter(|(t, _)| *t == number).map(|(_, r)| r.as_str()).collect();
        lines.push(line(format!("thread P{number}"), *head));
        lines.extend(Thread { number, cells, starts: &starts, asked: registers, old: &old }.lines()?);
    }
    accepted(&lines, &asked.text, parts.condition)
}

/// The remark line with a test's name, which must not be taken for an expectation.
fn name_line(name: &str) -> String {
    let plain = format!("# {name}");
    match asm::said(plain.as_bytes(), true).is_empty() {
        true => plain,
        false => format!("# test {name}"),
    }
}

/// The threads of the code.
fn threads<'a>(code: Part<'a>, wrong: &mut Vec<Wrong>) -> Threads<'a> {
    let rows: Vec<Part> = code.split(';').into_iter().filter(|row| !row.is_empty()).collect();
    let Some((heads, rows)) = rows.split_first() else {
        wrong.push(code.wrong("the first row of the code names the threads P0, P1 and so on, and there is none"));
        return Vec::new();
    };
    let heads = heads.split('|');
    for (t, head) in heads.iter().enumerate().filter(|(t, head)| head.text() != format!("P{t}")) {
        let message =
            format!("the first row of the code names the threads P0, P1 and so on; P{t} stands here, not {}", head.text());
        wrong.push(head.wrong(message));
    }
    let mut threads: Threads = heads.iter().map(|head| (*head, Vec::new())).collect();
    for row in rows {
        if wrong.len() >= MOST || threads.iter().any(|(_, cells)| cells.len() > CELLS) {
            break;
        }
        let cells = row.split('|');
        if cells.len() != heads.len() {
            let message = format!("cells in this row: {}, and threads: {}", cells.len(), heads.len());
            wrong.push(row.wrong(message));
            continue;
        }
        for ((_, thread), part) in threads.iter_mut().zip(cells).filter(|(_, part)| !part.is_empty()) {
            match cell(part) {
                Ok(cell) => thread.push(cell),
                Err(error) => wrong.push(error),
            }
        }
    }
    let longest = threads.iter().filter_map(|(_, cells)| cells.get(CELLS));
    wrong.extend(
        longest.map(|cell| cell.part.wrong(format!("the thread has {CELLS} cells above; a thread has at most 16 instructions"))),
    );
    threads
}

/// A start of a register whose thread is not there.
fn without_thread(start: &Start, threads: usize) -> Option<Wrong> {
    match start.place {
        Place::Register(t, _) if t >= threads => {
            Some(start.part.wrong(format!("there is no thread {t}; the test has {threads}")))
        }
        _ => None,
    }
}

/// A register's name that no location has.
fn old(locations: &BTreeSet<String>) -> String {
    let mut name = "old".to_string();
    while locations.contains(&name) {
        name.push('_');
    }
    name
}

/// The text of these lines, if it is a program whose condition can be asked for; else what is wrong, by its place in the test.
fn accepted(lines: &[Line], asked: &str, condition: Part) -> Result<Imported, Vec<Wrong>> {
    let form: String = lines.iter().map(|line| format!("{}\n", line.text)).collect();
    let made = asm::assemble(form.as_bytes()).map_err(|marks| {
        let back = |mark: Mark| lines.get(mark.line - 1).map_or(condition, |line| line.part).wrong(mark.message);
        marks.into_iter().map(back).collect::<Vec<_>>()
    })?;
    let program = Program::of_accepted(&made.file).named(&made.names);
    Condition::of(asked, &program).map_err(|message| vec![condition.wrong(message)])?;
    let places = lines.iter().map(|line| line.part.place()).collect();
    Ok(Imported { form, places })
}
