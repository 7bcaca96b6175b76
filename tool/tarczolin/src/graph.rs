//! Graphs, as the library's graph text gives them.
use crate::hex;
use std::collections::BTreeMap;

/// An event: thread t's access number i among those it did, from 0.
#[derive(Clone, Copy, Debug, PartialEq, Eq, PartialOrd, Ord)]
pub struct Event {
    pub t: u8,
    pub i: u8,
}

/// Reads-from (none: the initial write), and the writes of each location in coherence order.
#[derive(Clone, Debug, Default, PartialEq, Eq)]
pub struct Graph {
    pub reads: BTreeMap<Event, Option<Event>>,
    pub writes: BTreeMap<u8, Vec<Event>>,
}

/// An edge of the graph and its order.
#[derive(Clone, Copy, Debug, PartialEq, Eq, PartialOrd, Ord)]
pub enum Order {
    Program,
    ReadsFrom,
    Coherence,
    FromReads,
}

impl Graph {
    /// The graph that a text of the library writes, or of a text that it judges.
    pub fn of_text(text: &[u8]) -> Graph {
        let mut graph = Graph::default();
        for line in text.split(|&c| c == b'\n').filter(|line| !line.is_empty() && !line.starts_with(b"#")) {
            match hex::bytes(line).expect("a line of digits").as_slice() {
                [0x40, t, i, u, j] => {
                    let source = (*u != 0xff).then_some(Event { t: *u, i: *j });
                    graph.reads.insert(Event { t: *t, i: *i }, source);
                }
                [0x41, l, events @ ..] => {
                    let events = events.chunks_exact(2).map(|e| Event { t: e[0], i: e[1] });
                    graph.writes.insert(*l, events.collect());
                }
                other => panic!("{other:02x?} is no line of a graph text"),
            }
        }
        graph
    }

    /// The edges that are drawn: reads-from, coherence from each write to the next one, and from-reads to the first write
    /// behind the source. The others follow from these.
    pub fn edges(&self, location: impl Fn(Event) -> u8) -> Vec<(Order, Option<Event>, Event)> {
        let mut edges: Vec<_> = self.reads.iter().map(|(read, source)| (Order::ReadsFrom, *source, *read)).collect();
        for writes in self.writes.values() {
            edges.extend(writes.windows(2).map(|pair| (Order::Coherence, Some(pair[0]), pair[1])));
        }
        for (read, source) in &self.reads {
            let writes = self.writes.get(&location(*read)).map_or(&[][..], Vec::as_slice);
            let behind = source.map_or(0, |s| writes.iter().position(|w| *w == s).map_or(0, |k| k + 1));
            // a fetch and add or a swap stands right behind its own source: the edge to itself is left out
            let next = writes[behind..].iter().find(|write| *write != read);
            edges.extend(next.map(|write| (Order::FromReads, Some(*read), *write)));
        }
        edges
    }
}
