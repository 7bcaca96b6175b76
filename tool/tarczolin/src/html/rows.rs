//! The rows of an execution, and the words of each in its box.
use crate::execution::{Execution, Step};
use crate::graph::Event;
use crate::machine::{Done, Failure, Queue};
use crate::program::{number, Instruction, Names, FENCE};

/// A row: a step, or an assertion that failed.
pub enum Row<'a> {
    Failure(u8, Failure),
    Step(&'a Step),
}

impl Row<'_> {
    pub fn thread(&self) -> u8 {
        match self {
            Row::Failure(t, _) => *t,
            Row::Step(step) => step.done.event.t,
        }
    }

    /// The event of a step.
    pub fn event(&self) -> Option<Event> {
        match self {
            Row::Failure(..) => None,
            Row::Step(step) => Some(step.done.event),
        }
    }

    /// Is it a store that reaches memory, behind the row of the store itself?
    pub fn is_move(&self) -> bool {
        matches!(self, Row::Step(step) if step.done.queue == Queue::Out)
    }

    /// What it is about, for the page's filter: its thread, and the location of a step.
    pub fn data(&self) -> String {
        match self {
            Row::Failure(t, _) => format!("data-t=\"{t}\""),
            Row::Step(step) if step.done.fence => format!("data-t=\"{}\"", step.done.event.t),
            Row::Step(step) => format!("data-t=\"{}\" data-l=\"{}\"", step.done.event.t, step.done.location),
        }
    }
}

/// The rows of an execution, in order.
pub fn rows<'e>(execution: &'e Execution) -> Vec<Row<'e>> {
    let mut rows: Vec<Row> = execution.at_once.iter().map(|(t, failed)| Row::Failure(*t, *failed)).collect();
    for step in &execution.steps {
        rows.push(Row::Step(step));
        rows.extend(step.done.failure.map(|failed| Row::Failure(step.done.event.t, failed)));
    }
    rows
}

/// The words in a box, in two lines: the access's number and name, and what it did, shorter than in the columns.
pub fn words(names: &Names, row: &Row) -> [String; 2] {
    match row {
        Row::Failure(t, failed) => ["✗ assert".to_string(), names.register(*t, failed.r)],
        Row::Step(Step { done, .. }) if done.fence => [format!("#{} {FENCE}", done.event.i), String::new()],
        Row::Step(Step { done, .. }) => {
            let name = match done.queue {
                Queue::Aside => done.instruction.access().unwrap_or(""),
                Queue::In => "store, pending",
                Queue::Out => "to memory",
            };
            [format!("#{} {name}", done.event.i), values(names, done)]
        }
    }
}

fn values(names: &Names, done: &Done) -> String {
    let l = names.location(done.location);
    let found = number(done.found.unwrap_or(0));
    match (done.instruction, done.left) {
        (Instruction::Load { .. }, _) => format!("{l}: {found}"),
        (Instruction::Store { .. }, Some(left)) => format!("{l} = {}", number(left)),
        (_, Some(left)) => format!("{l}: {found} → {}", number(left)),
        (_, None) => format!("{l}: {found} kept"),
    }
}
