//! Execution graphs: of a full schedule, as text, and with threads exchanged.
use super::machine::{Event, Machine, INITIAL};
use crate::files::line;
use std::collections::BTreeMap;

/// Reads-from, and the writes of each location in coherence order. A location without writes is left out.
#[derive(Clone, Debug, Default, PartialEq, Eq, PartialOrd, Ord, Hash)]
pub struct Graph {
    pub reads: BTreeMap<Event, Event>,
    pub writes: BTreeMap<u8, Vec<Event>>,
}

impl Graph {
    /// The graph of the steps that a machine has done.
    pub fn of(machine: &Machine) -> Graph {
        let mut graph = Graph::default();
        for (event, effect) in &machine.done {
            let before = graph.writes.get(&effect.location).and_then(|writes| writes.last());
            if effect.read.is_some() {
                graph.reads.insert(*event, before.copied().unwrap_or(INITIAL));
            }
            if effect.written.is_some() {
                graph.writes.entry(effect.location).or_default().push(*event);
            }
        }
        graph
    }

    /// The graph text: a `40` line for each read, then a `41` line for each location written.
    pub fn text(&self) -> Vec<u8> {
        let mut text = Vec::new();
        for (read, source) in &self.reads {
            text.extend(line(&[0x40, read.t, read.i, source.t, source.i]));
        }
        for (l, writes) in &self.writes {
            let mut frame = vec![0x41, *l];
            frame.extend(writes.iter().flat_map(|e| [e.t, e.i]));
            text.extend(line(&frame));
        }
        text
    }

    /// The graph with thread t moved to `to[t]`.
    pub fn exchanged(&self, to: &[u8]) -> Graph {
        let moved = |e: &Event| if *e == INITIAL { INITIAL } else { Event { t: to[e.t as usize], i: e.i } };
        Graph {
            reads: self.reads.iter().map(|(read, source)| (moved(read), moved(source))).collect(),
            writes: self.writes.iter().map(|(l, writes)| (*l, writes.iter().map(moved).collect())).collect(),
        }
    }
}
