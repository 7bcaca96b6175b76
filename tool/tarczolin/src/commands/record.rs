//! Executions and graphs as JSON.
use crate::execution::{Execution, Source, Step};
use crate::graph::{Event, Graph};
use crate::json::{list, object, Json};
use crate::machine::Queue;
use crate::program::{Program, FENCE};

fn event(event: Event) -> Json {
    object([("thread", event.t.into()), ("access", event.i.into())])
}

fn step(execution: &Execution, step: &Step) -> Json {
    let (names, done) = (&execution.program.names, &step.done);
    let source = match step.source {
        Some(Source::Write(write, ..)) => event(write),
        Some(Source::Initial) => "initial".into(),
        None => Json::Null,
    };
    let queue = match done.queue {
        Queue::Aside => Json::Null,
        Queue::In => "in".into(),
        Queue::Out => "out".into(),
    };
    let failure = done.failure.map(|failed| execution.failure(done.event.t, &failed));
    object([
        ("thread", done.event.t.into()),
        ("name", names.thread(done.event.t).into()),
        ("access", done.event.i.into()),
        ("kind", if done.fence { FENCE.into() } else { done.instruction.access().into() }),
        ("location", (!done.fence).then(|| names.location(done.location)).into()),
        ("found", done.found.filter(|_| !done.fence).into()),
        ("left", done.left.into()),
        ("reads_from", source),
        ("queue", queue),
        ("line", execution.written(done).map(|written| written.line as u64).into()),
        ("statement", execution.written(done).map(|written| written.text.as_str()).into()),
        ("failure", failure.into()),
    ])
}

/// Final memory, by name.
pub fn memory(program: &Program, memory: &[u32; 8]) -> (&'static str, Json) {
    let value = |l: u8| (program.names.location(l), memory[l as usize].into());
    ("memory", Json::Object(program.locations().into_iter().map(value).collect()))
}

/// The values at the end, by name.
pub fn values(execution: &Execution) -> [(&'static str, Json); 2] {
    let program = execution.program;
    let names = &program.names;
    let of_thread = |t: u8| {
        let value = move |r: u8| {
            (format!("{}.{}", names.thread(t), names.register(t, r)), execution.registers[t as usize][r as usize].into())
        };
        program.registers(t).into_iter().map(value)
    };
    let registers = program.numbers().flat_map(of_thread).collect();
    [memory(program, &execution.memory), ("registers", Json::Object(registers))]
}

/// The fields of an execution.
pub fn execution(execution: &Execution) -> [(&'static str, Json); 8] {
    let [memory, registers] = values(execution);
    let at_once = execution.at_once.iter().map(|(t, failed)| execution.failure(*t, failed));
    [
        ("position", execution.position.into()),
        ("schedule", execution.schedule.to_string().into()),
        ("fails", execution.fails.into()),
        ("executions", execution.executions.into()),
        ("steps", list(execution.steps.iter().map(|one| step(execution, one)))),
        ("failed_at_once", list(at_once)),
        memory,
        registers,
    ]
}

/// The fields of a graph.
pub fn graph(graph: &Graph) -> [(&'static str, Json); 2] {
    let read = |(read, source): (&Event, &Option<Event>)| {
        object([("thread", read.t.into()), ("access", read.i.into()), ("from", source.map(event).into())])
    };
    let write = |(l, writes): (&u8, &Vec<Event>)| {
        object([("location", (*l).into()), ("events", list(writes.iter().map(|one| event(*one))))])
    };
    [("reads", list(graph.reads.iter().map(read))), ("writes", list(graph.writes.iter().map(write)))]
}
