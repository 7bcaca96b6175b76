//! A graph for Graphviz: a column of nodes a thread, and the four orders as edges.
use crate::execution::Execution;
use crate::graph::{Event, Order};
use crate::machine::{Done, Queue};
use std::fmt::Write;

fn node(event: Event) -> String {
    format!("t{}_{}", event.t, event.i)
}

fn quoted(text: &str) -> String {
    format!("\"{}\"", text.replace('\\', "\\\\").replace('"', "\\\""))
}

/// How an order is drawn.
fn style(order: Order) -> &'static str {
    match order {
        Order::Program => "color=gray40, label=po",
        Order::ReadsFrom => "color=darkgreen, fontcolor=darkgreen, label=rf, constraint=false",
        Order::Coherence => "color=chocolate, fontcolor=chocolate, label=co, style=dashed, constraint=false",
        Order::FromReads => "color=purple, fontcolor=purple, label=fr, style=dotted, constraint=false",
    }
}

/// The accesses; that a store reaches memory is no access of its own, and whether it was pending before is left out.
fn accesses<'e>(execution: &'e Execution) -> impl Iterator<Item = Done> + use<'e> {
    let accesses = execution.steps.iter().map(|step| step.done).filter(|done| done.queue != Queue::Out);
    accesses.map(|done| Done { queue: Queue::Aside, ..done })
}

pub fn text(execution: &Execution) -> String {
    let names = &execution.program.names;
    let mut text = String::from("digraph execution {\n  node [shape=box, fontname=monospace];\n  initial [shape=plaintext];\n");
    for t in execution.program.numbers() {
        writeln!(text, "  subgraph cluster_{t} {{\n    label={};", quoted(&names.thread(t))).expect("text grows");
        for done in accesses(execution).filter(|done| done.event.t == t) {
            let label = format!("#{} {}", done.event.i, execution.access(&done));
            let failed = if done.failure.is_some() { ", color=red" } else { "" };
            writeln!(text, "    {} [label={}{failed}];", node(done.event), quoted(&label)).expect("text grows");
        }
        text += "  }\n";
    }
    for done in accesses(execution).filter(|done| done.event.i > 0) {
        let before = Event { i: done.event.i - 1, ..done.event };
        writeln!(text, "  {} -> {} [{}];", node(before), node(done.event), style(Order::Program)).expect("text grows");
    }
    for (order, from, to) in execution.graph.edges(|event| execution.location(event)) {
        let from = from.map_or("initial".to_string(), node);
        writeln!(text, "  {from} -> {} [{}];", node(to), style(order)).expect("text grows");
    }
    text + "}\n"
}
