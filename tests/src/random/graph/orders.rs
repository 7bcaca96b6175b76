//! Changes of a graph: of its sources, of its coherence, of the events that stand in it.
use super::Change::{self, *};
use crate::oracle::graph::Graph;
use crate::oracle::machine::{Event, Machine, INITIAL};
use crate::random::Random;

/// Some event, of a thread of the program, near those that it did.
fn event(random: &mut Random, machine: &Machine) -> Event {
    let t = random.below(machine.threads.len());
    let i = random.below(machine.threads[t].accesses as usize + 2);
    Event { t: t as u8, i: i.min(15) as u8 }
}

/// The events that wrote at a location.
fn writes(machine: &Machine, location: u8) -> Vec<Event> {
    let all = machine.done.iter().filter(|(_, effect)| effect.written.is_some() && effect.location == location);
    all.map(|(event, _)| *event).collect()
}

/// Another source for one read, most often a write to the same location.
fn source(random: &mut Random, machine: &Machine, graph: &mut Graph) {
    let reads: Vec<_> = machine.done.iter().filter(|(_, effect)| effect.read.is_some()).collect();
    if reads.is_empty() {
        return;
    }
    let (read, effect) = reads[random.below(reads.len())];
    let mut from = writes(machine, effect.location);
    from.push(if random.one_in(2) { INITIAL } else { event(random, machine) });
    graph.reads.insert(*read, random.pick(&from));
}

/// Any sources and any coherence among the same events.
fn any_orders(random: &mut Random, machine: &Machine, graph: &mut Graph) {
    for (read, effect) in machine.done.iter().filter(|(_, effect)| effect.read.is_some()) {
        let from = [writes(machine, effect.location), vec![INITIAL]].concat();
        graph.reads.insert(*read, random.pick(&from));
    }
    graph.writes.values_mut().for_each(|writes| random.shuffle(writes));
}

/// Two writes of a location with more than one, exchanged.
fn coherence(random: &mut Random, graph: &mut Graph) {
    let mut some: Vec<&mut Vec<Event>> = graph.writes.values_mut().filter(|writes| writes.len() > 1).collect();
    if !some.is_empty() {
        let at = random.below(some.len());
        let a = random.below(some[at].len() - 1);
        some[at].swap(a, a + 1);
    }
}

/// Does `each` to the writes of one location, and leaves out a location without any.
fn location(random: &mut Random, graph: &mut Graph, each: impl FnOnce(&mut Random, &mut Vec<Event>)) {
    let locations: Vec<u8> = graph.writes.keys().copied().collect();
    if !locations.is_empty() {
        let l = random.pick(&locations);
        each(random, graph.writes.get_mut(&l).unwrap());
        graph.writes.retain(|_, writes| !writes.is_empty());
    }
}

/// Some write put at some location, where it does not stand yet.
fn more_write(random: &mut Random, graph: &mut Graph, write: Event) {
    if !graph.writes.values().any(|writes| writes.contains(&write)) {
        let locations: Vec<u8> = graph.writes.keys().copied().chain([random.below(8) as u8]).collect();
        let writes = graph.writes.entry(random.pick(&locations)).or_default();
        writes.insert(random.below(writes.len() + 1), write);
    }
}

/// Threads moved as they may come: declared alike or not.
fn exchanged(random: &mut Random, machine: &Machine, graph: &mut Graph) {
    let mut to: Vec<u8> = (0..machine.threads.len() as u8).collect();
    random.shuffle(&mut to);
    *graph = graph.exchanged(&to);
}

/// Changes a graph; that of a program without threads has nothing to change.
pub fn change(random: &mut Random, machine: &Machine, change: Change, graph: &mut Graph) {
    if machine.threads.is_empty() {
        return;
    }
    let reads: Vec<Event> = graph.reads.keys().copied().collect();
    match change {
        Source => source(random, machine, graph),
        OwnSource | InitialSource | LostRead if reads.is_empty() => {}
        OwnSource => {
            let read = random.pick(&reads);
            graph.reads.insert(read, read);
        }
        InitialSource => drop(graph.reads.insert(random.pick(&reads), INITIAL)),
        Coherence => coherence(random, graph),
        AnyOrders => any_orders(random, machine, graph),
        LostRead => drop(graph.reads.remove(&random.pick(&reads))),
        MoreRead => drop(graph.reads.entry(event(random, machine)).or_insert(INITIAL)),
        LostWrite => location(random, graph, |random, writes| {
            writes.remove(random.below(writes.len()));
        }),
        MoreWrite => {
            let write = event(random, machine);
            more_write(random, graph, write);
        }
        LostLocation => location(random, graph, |_, writes| writes.clear()),
        OtherLocation => {
            let mut all = Vec::new();
            location(random, graph, |_, writes| all = std::mem::take(writes));
            if !all.is_empty() {
                graph.writes.entry(random.below(8) as u8).or_default().extend(all);
            }
        }
        MovedWrite => {
            let mut moved = None;
            location(random, graph, |random, writes| moved = Some(writes.remove(random.below(writes.len()))));
            if let Some(write) = moved {
                more_write(random, graph, write);
            }
        }
        ExchangedThreads => exchanged(random, machine, graph),
        _ => {}
    }
}
