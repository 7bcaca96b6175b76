//! An execution of total store order that is none of sequential consistency, and the circle that shows it.
use super::judge::{told, why_json};
use super::record;
use crate::accepted::Accepted;
use crate::ask;
use crate::execution::Execution;
use crate::graph::Graph;
use crate::json::Json;
use crate::model::Model;
use crate::program::Program;
use crate::progress::waiting;
use crate::schedule::Schedule;
use crate::show::{columns, By};
use crate::why::why;

/// The first relaxed execution of a program under total store order, or none where it is robust.
pub fn first(source: &Accepted) -> Option<Schedule> {
    waiting(|| ask::robust(&source.file)).expect("the file is accepted")
}

pub struct Relaxed {
    /// It in two columns.
    pub columns: String,
    /// Its circle, for the eye.
    pub circle: String,
    pub fields: [(&'static str, Json); 7],
}

impl Relaxed {
    pub fn of(source: &Accepted, schedule: &Schedule) -> Relaxed {
        let program = &source.program;
        let execution = Execution::replayed(&source.file, program, schedule).expect("a listed schedule is full");
        let graph = Graph::of_text(&ask::graph(Model::Tso, &source.file, schedule).expect("a listed schedule is full"));
        // the judge's definition knows no queues: threads run on the values that the graph gives their reads
        let judged = Program { model: Model::Sc, ..program.clone() };
        let why = why(&judged, &graph);
        let circle = why.as_ref().map_or(String::new(), |why| told(&judged, &graph, why));
        let [_, schedule, fails, _, steps, at_once, memory, registers] = record::execution(&execution);
        let why = ("why", why.as_ref().map(why_json).into());
        Relaxed {
            columns: columns(&execution, By::Time),
            circle: format!("{}\n", circle.trim_start()),
            fields: [schedule, fails, steps, at_once, memory, registers, why],
        }
    }
}
