//! The threads run on the values that a graph gives to their reads.
use super::reason::{Edge, Why};
use crate::graph::{Event, Graph, Order};
use crate::machine::{Done, Machine};
use crate::program::{Names, Program};
use std::collections::BTreeMap;

type Events = BTreeMap<Event, Done>;

/// What each access did, or why the program does not make this graph.
pub fn run(program: &Program, graph: &Graph) -> Result<Events, Why> {
    let names = &program.names;
    let mut machine = Machine::new(program);
    let mut done = Events::new();
    while let Some((t, found)) = next(program, graph, &machine, &done)? {
        let step = machine.step_with(t, found);
        done.insert(step.event, step);
    }
    if machine.going().next().is_some() {
        return Err(Why::Cycle(circle(graph, &machine)));
    }
    reads_fit(names, graph, &done)?;
    writes_fit(names, graph, &done)?;
    Ok(done)
}

/// The place in its thread's code of each access that the run does, and of those that threads wait at.
pub fn places(program: &Program, graph: &Graph) -> BTreeMap<Event, usize> {
    let mut machine = Machine::new(program);
    let mut done = Events::new();
    while let Ok(Some((t, found))) = next(program, graph, &machine, &done) {
        let step = machine.step_with(t, found);
        done.insert(step.event, step);
    }
    let stands = machine.places();
    let waiting = machine.going().filter_map(|t| Some((machine.next(t)?.0, stands[t as usize] as usize)));
    done.iter().map(|(event, done)| (*event, done.at)).chain(waiting).collect()
}

/// A thread that can go on, and the value that its read finds; none where all have ended or wait for each other.
fn next(program: &Program, graph: &Graph, machine: &Machine, done: &Events) -> Result<Option<(u8, u32)>, Why> {
    let names = &program.names;
    for t in machine.going() {
        let (event, instruction) = machine.next(t).expect("it goes on");
        if instruction.access() == Some("store") {
            return Ok(Some((t, 0)));
        }
        let Some(source) = graph.reads.get(&event) else {
            return misfit(format!("{} reads, and no 40 line says from where", called(names, event)));
        };
        let Some(write) = source else {
            let own = instruction.location().expect("an access");
            return Ok(Some((t, program.memory()[own as usize])));
        };
        match done.get(write) {
            Some(Done { left: None, .. }) => {
                return misfit(format!("{} reads from {}, which does not write", called(names, event), called(names, *write)));
            }
            Some(Done { location, left: Some(value), .. }) => {
                let own = instruction.location().expect("an access");
                if own != *location {
                    let (from, to) = (names.location(*location), names.location(own));
                    let pair = format!("{} reads {to} from {}", called(names, event), called(names, *write));
                    return misfit(format!("{pair}, which writes {from}"));
                }
                return Ok(Some((t, *value)));
            }
            None if !machine.may(write.t) => {
                let pair = format!("{} reads from {}", called(names, event), called(names, *write));
                return misfit(format!("{pair}, and {} ends before", names.thread(write.t)));
            }
            None => {}
        }
    }
    Ok(None)
}

fn misfit<T>(message: String) -> Result<T, Why> {
    Err(Why::Misfit(message))
}

fn called(names: &Names, event: Event) -> String {
    format!("{} #{}", names.thread(event.t), event.i)
}

/// Threads that wait for each other's writes: each stands at a read whose source comes at or behind another such read.
fn circle(graph: &Graph, machine: &Machine) -> Vec<Edge> {
    let standing = |t: u8| machine.next(t).expect("it goes on").0;
    let source = |read: Event| graph.reads[&read].expect("it waits for a write");
    let mut read = standing(machine.going().next().expect("one waits"));
    let mut seen = Vec::new();
    while !seen.contains(&read) {
        seen.push(read);
        read = standing(source(read).t);
    }
    let begins = seen.iter().position(|one| *one == read).expect("it was seen");
    let mut edges = Vec::new();
    // from each read back to the write it waits for, and in that thread back to where it stands
    for &to in &seen[begins..] {
        let write = source(to);
        edges.push(Edge { from: write, order: Order::ReadsFrom, to });
        let stands = standing(write.t);
        if stands != write {
            edges.push(Edge { from: stands, order: Order::Program, to: write });
        }
    }
    edges.reverse();
    edges
}

/// Every 40 line tells of a read that the run does.
fn reads_fit(names: &Names, graph: &Graph, done: &Events) -> Result<(), Why> {
    for read in graph.reads.keys() {
        match done.get(read) {
            None => return misfit(format!("a 40 line names {}, an access that the program does not do", called(names, *read))),
            Some(Done { found: None, .. }) => {
                return misfit(format!("a 40 line names {}, which does not read", called(names, *read)));
            }
            Some(_) => {}
        }
    }
    Ok(())
}

/// The 41 line of each location has just its writes.
fn writes_fit(names: &Names, graph: &Graph, done: &Events) -> Result<(), Why> {
    for (l, writes) in &graph.writes {
        for event in writes {
            let writes = done.get(event).is_some_and(|done| done.left.is_some() && done.location == *l);
            if !writes {
                let (event, location) = (called(names, *event), names.location(*l));
                return misfit(format!("the 41 line of {location} names {event}, which does not write {location}"));
            }
        }
    }
    for (event, done) in done.iter().filter(|(_, done)| done.left.is_some()) {
        if !graph.writes.get(&done.location).is_some_and(|writes| writes.contains(event)) {
            let location = names.location(done.location);
            return misfit(format!("{} writes {location}, and no 41 line of {location} names it", called(names, *event)));
        }
    }
    Ok(())
}
