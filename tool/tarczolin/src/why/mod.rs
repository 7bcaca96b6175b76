//! Why a graph cannot happen, by the published definition: the program does not make it, or its four orders have a cycle. The
//! judge's answer is the library's and proved; this explanation of a no is plain Rust and not proved.
mod cycle;
mod reason;
mod run;

use crate::graph::Graph;
use crate::program::Program;

pub use reason::{Edge, Why};
pub use run::places;

/// Why this graph cannot happen, or none where it can.
pub fn why(program: &Program, graph: &Graph) -> Option<Why> {
    match run::run(program, graph) {
        Err(why) => Some(why),
        Ok(done) => cycle::cycle(graph, &done).map(Why::Cycle),
    }
}
