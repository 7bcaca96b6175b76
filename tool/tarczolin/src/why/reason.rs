//! What a no comes from.
use crate::graph::{Event, Order};

/// An edge of the four orders.
#[derive(Clone, Copy, Debug, PartialEq, Eq)]
pub struct Edge {
    pub from: Event,
    pub order: Order,
    pub to: Event,
}

#[derive(Clone, Debug, PartialEq, Eq)]
pub enum Why {
    /// The program does not make the graph.
    Misfit(String),
    /// Each edge begins where the one before ends, and the last ends where the first begins.
    Cycle(Vec<Edge>),
}
