//! A shortest cycle of the four orders.
use super::reason::Edge;
use crate::graph::{Event, Graph, Order};
use crate::machine::Done;
use std::collections::{BTreeMap, VecDeque};

/// The edges from which all others follow: to the next event of a thread, to the next write, to the first write behind a source.
fn edges(graph: &Graph, done: &BTreeMap<Event, Done>) -> Vec<Edge> {
    let next = |event: &Event| Event { i: event.i + 1, ..*event };
    let program = done.keys().filter(|event| done.contains_key(&next(event)));
    let program = program.map(|event| Edge { from: *event, order: Order::Program, to: next(event) });
    let orders = graph.edges(|event| done[&event].location).into_iter();
    program.chain(orders.filter_map(|(order, from, to)| Some(Edge { from: from?, order, to }))).collect()
}

/// A shortest way from an event back to itself.
fn way(edges: &[Edge], from: Event) -> Option<Vec<Edge>> {
    let mut came: BTreeMap<Event, Edge> = BTreeMap::new();
    let mut waiting = VecDeque::from([from]);
    while let Some(at) = waiting.pop_front() {
        for edge in edges.iter().filter(|edge| edge.from == at) {
            if came.contains_key(&edge.to) {
                continue;
            }
            came.insert(edge.to, *edge);
            if edge.to == from {
                return Some(back(&came, from));
            }
            waiting.push_back(edge.to);
        }
    }
    None
}

/// The edges by which a search came back to where it began, in order.
fn back(came: &BTreeMap<Event, Edge>, end: Event) -> Vec<Edge> {
    let mut way = vec![came[&end]];
    while way[way.len() - 1].from != end {
        way.push(came[&way[way.len() - 1].from]);
    }
    way.reverse();
    way
}

pub fn cycle(graph: &Graph, done: &BTreeMap<Event, Done>) -> Option<Vec<Edge>> {
    let edges = edges(graph, done);
    done.keys().filter_map(|event| way(&edges, *event)).min_by_key(Vec::len)
}
