//! The judge of graph texts, straight from the definition: values for the reads, then a search for a cycle.
use super::decode::Program;
use super::graph::Graph;
use super::machine::{every_full, opened, Effect, Event, Machine, INITIAL};
use super::{refused, Refusal};
use std::collections::BTreeMap;

/// The frame bytes of a line without its 0a, or none: empty, odd, another character.
fn frame(line: &[u8]) -> Option<Vec<u8>> {
    let digits = b"0123456789abcdef";
    let value = |c: &u8| digits.iter().position(|d| d.eq_ignore_ascii_case(c)).map(|v| v as u8);
    let values: Option<Vec<u8>> = line.iter().map(value).collect();
    let values = values.filter(|v| !v.is_empty() && v.len() % 2 == 0)?;
    Some(values.chunks_exact(2).map(|pair| pair[0] << 4 | pair[1]).collect())
}

/// The pairs of bytes of a frame, as events.
fn events(bytes: &[u8]) -> Vec<Event> {
    bytes.chunks_exact(2).map(|e| Event { t: e[0], i: e[1] }).collect()
}

/// Reads the lines of a graph text one after the other.
struct Reader<'a> {
    program: &'a Program,
    graph: Graph,
    /// The first byte of the last line, and what orders it among lines of that kind.
    last: Option<(u8, Event)>,
}

impl Reader<'_> {
    /// One line, by 30, 31, 32, 33. A remark says nothing.
    fn line(&mut self, line: &[u8], place: usize) -> Result<(), Refusal> {
        if line.starts_with(b"#") {
            return Ok(());
        }
        let Some(frame) = frame(line) else { return refused(30, place) };
        match (frame[0], frame.len()) {
            (0x40, 5) => self.read(&events(&frame[1..]), place),
            (0x41, length) if length >= 4 && length % 2 == 0 => self.writes(frame[1], &events(&frame[2..]), place),
            _ => refused(31, place),
        }
    }

    fn in_range(&self, event: &Event) -> bool {
        (event.t as usize) < self.program.threads.len() && event.i <= 15
    }

    /// Does a line of this kind and rank come after the line before it?
    fn ascends(&mut self, kind: u8, rank: Event) -> bool {
        let here = Some((kind, rank));
        let ascends = self.last < here;
        self.last = here;
        ascends
    }

    fn read(&mut self, both: &[Event], place: usize) -> Result<(), Refusal> {
        let (event, source) = (both[0], both[1]);
        if !self.in_range(&event) || !(source == INITIAL || self.in_range(&source)) {
            return refused(32, place);
        }
        if !self.ascends(0x40, event) {
            return refused(33, place);
        }
        self.graph.reads.insert(event, source);
        Ok(())
    }

    fn writes(&mut self, l: u8, writes: &[Event], place: usize) -> Result<(), Refusal> {
        if l > 7 || !writes.iter().all(|e| self.in_range(e)) {
            return refused(32, place);
        }
        if !self.ascends(0x41, Event { t: l, i: 0 }) {
            return refused(33, place);
        }
        for (k, event) in writes.iter().enumerate() {
            if writes[..k].contains(event) || self.graph.writes.values().any(|w| w.contains(event)) {
                return refused(33, place);
            }
        }
        self.graph.writes.insert(l, writes.to_vec());
        Ok(())
    }
}

/// The graph that a text tells, or its refusal.
pub fn parse(program: &Program, text: &[u8]) -> Result<Graph, Refusal> {
    let mut reader = Reader { program, graph: Graph::default(), last: None };
    let mut rest = text;
    let mut place = 0;
    while !rest.is_empty() {
        place += 1;
        let Some(end) = rest.iter().position(|&c| c == b'\n') else { return refused(30, place) };
        reader.line(&rest[..end], place)?;
        rest = &rest[end + 1..];
    }
    Ok(reader.graph)
}

/// What every thread does when it runs alone on these values of reads, as far as they are known.
struct Alone {
    effects: BTreeMap<Event, Effect>,
    /// Where each access goes that a thread came to, also one whose value is not known yet.
    places: BTreeMap<Event, u8>,
    /// Did every thread come to its end?
    ended: bool,
}

fn run_alone(program: &Program, values: &BTreeMap<Event, u32>) -> Alone {
    let mut alone = Alone { effects: BTreeMap::new(), places: BTreeMap::new(), ended: true };
    for (t, code) in program.threads.iter().enumerate() {
        let mut thread = opened(code);
        while !thread.ended(code) {
            let event = Event { t: t as u8, i: thread.accesses };
            alone.places.insert(event, thread.location(code));
            let found = if thread.reads(code) { values.get(&event).copied() } else { Some(0) };
            let Some(found) = found else {
                alone.ended = false;
                break;
            };
            alone.effects.insert(event, thread.access(code, found));
        }
    }
    alone
}

/// The effects of every event of a graph that the program makes; none where it does not make it, or where the values
/// depend on themselves in a circle: reads-from and program order then have a cycle.
pub fn made(program: &Program, graph: &Graph) -> Option<BTreeMap<Event, Effect>> {
    let mut values = BTreeMap::new();
    let alone = loop {
        let alone = run_alone(program, &values);
        let known = values.len();
        for (read, source) in &graph.reads {
            let value = match *source {
                // the initial write carries what its location starts with
                INITIAL => alone.places.get(read).map(|l| program.memory[*l as usize]),
                _ => alone.effects.get(source).and_then(|e| e.written),
            };
            if let Some(value) = value {
                values.insert(*read, value);
            }
        }
        // a value once known never changes: what a thread does up to a read depends on the reads before it alone
        if values.len() == known {
            break alone;
        }
    };
    (alone.ended && stands(graph, &alone.effects)).then_some(alone.effects)
}

/// Do just these reads and writes stand in the graph, and does each source write where its read reads?
fn stands(graph: &Graph, effects: &BTreeMap<Event, Effect>) -> bool {
    let reads = effects.iter().filter(|(_, e)| e.read.is_some()).map(|(event, _)| event);
    let mut writes: BTreeMap<Event, u8> = BTreeMap::new();
    for (l, events) in &graph.writes {
        writes.extend(events.iter().map(|e| (*e, *l)));
    }
    let written = effects.iter().filter(|(_, e)| e.written.is_some()).map(|(event, e)| (*event, e.location));
    let sources = graph.reads.iter().all(|(read, source)| {
        *source == INITIAL
            || match (effects.get(read), effects.get(source)) {
                (Some(read), Some(source)) => source.written.is_some() && source.location == read.location,
                _ => false,
            }
    });
    reads.eq(graph.reads.keys()) && written.eq(writes) && sources
}

/// Every edge of the four orders, between the events of a graph that the program makes.
fn edges(graph: &Graph, effects: &BTreeMap<Event, Effect>) -> Vec<(Event, Event)> {
    let mut edges = Vec::new();
    for a in effects.keys() {
        // program order
        edges.extend(effects.keys().filter(|b| a.t == b.t && a.i < b.i).map(|b| (*a, *b)));
    }
    for (read, source) in &graph.reads {
        // reads-from
        if *source != INITIAL {
            edges.push((*source, *read));
        }
        // from-reads: to each write that follows the source, but not to the read itself
        let writes = graph.writes.get(&effects[read].location).map_or(&[][..], |w| w);
        let from = if *source == INITIAL { 0 } else { writes.iter().position(|w| w == source).unwrap() + 1 };
        edges.extend(writes[from..].iter().filter(|w| *w != read).map(|w| (*read, *w)));
    }
    for writes in graph.writes.values() {
        // coherence
        for (k, a) in writes.iter().enumerate() {
            edges.extend(writes[k + 1..].iter().map(|b| (*a, *b)));
        }
    }
    edges
}

/// Does some event reach itself by one or more edges?
fn cyclic(effects: &BTreeMap<Event, Effect>, edges: &[(Event, Event)]) -> bool {
    effects.keys().any(|start| {
        let mut reached = Vec::new();
        let mut todo = vec![*start];
        while let Some(at) = todo.pop() {
            for (_, to) in edges.iter().filter(|(from, _)| *from == at) {
                if !reached.contains(to) {
                    reached.push(*to);
                    todo.push(*to);
                }
            }
        }
        reached.contains(start)
    })
}

/// Consistent: made by the program, and the four orders together have no cycle.
pub fn consistent(program: &Program, graph: &Graph) -> bool {
    made(program, graph).is_some_and(|effects| !cyclic(&effects, &edges(graph, &effects)))
}

/// The least full schedule with this graph, by a walk over all full schedules.
pub fn least_by_walk(program: &Program, graph: &Graph) -> Option<Vec<u8>> {
    let mut found = None;
    every_full(&Machine::new(program), &mut Vec::new(), &mut |schedule, machine| {
        if Graph::of(machine) == *graph {
            found = Some(schedule.to_vec());
        }
        found.is_some()
    });
    found
}

/// The least order of a consistent graph's events that keeps the four orders, as a schedule.
pub fn least_by_sorting(program: &Program, graph: &Graph) -> Option<Vec<u8>> {
    let effects = made(program, graph)?;
    let edges = edges(graph, &effects);
    let mut left: Vec<Event> = effects.keys().copied().collect();
    let mut schedule = Vec::new();
    while !left.is_empty() {
        // events ascend by thread, so the first free one is of the least thread
        let free = left.iter().position(|e| !edges.iter().any(|(a, b)| b == e && left.contains(a)))?;
        schedule.push(left.remove(free).t);
    }
    Some(schedule)
}

/// Yes with the least schedule that makes the graph, or no.
pub fn judge(program: &Program, text: &[u8]) -> Result<Option<Vec<u8>>, Refusal> {
    let graph = parse(program, text)?;
    Ok(if consistent(program, &graph) { least_by_sorting(program, &graph) } else { None })
}
