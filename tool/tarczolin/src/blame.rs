//! From a failed assertion backwards: the reads that its registers come from, the write that each saw, and the writes that it missed. Plain
//! Rust over an execution, which is not proved.
use crate::execution::{Execution, Source};
use crate::graph::Event;
use crate::machine::{Done, Failure, Queue};
use crate::program::{number, Instruction, Operand};
use std::collections::BTreeSet;
use Instruction::*;

/// What a register holds, and the reads that it comes from.
#[derive(Clone, Debug, Default)]
struct Held {
    value: u32,
    reads: BTreeSet<Event>,
}

/// A thread run once more on what its reads found, up to an instruction.
struct Run<'a> {
    execution: &'a Execution<'a>,
    t: u8,
    registers: [Held; 4],
    /// The registers of the last condition that was asked.
    condition: Vec<u8>,
}

impl Run<'_> {
    fn operand(&self, p: Operand) -> Held {
        match p {
            Operand::Constant(value) => Held { value, reads: BTreeSet::new() },
            Operand::Register(r) => self.registers[r as usize].clone(),
        }
    }

    /// Goes on up to this instruction.
    fn up_to(&mut self, at: usize) {
        let code = &self.execution.program.threads[self.t as usize];
        let (mut next, mut access) = (0, 0);
        while next < at {
            match code[next] {
                Set { r, p } => self.registers[r as usize] = self.operand(p),
                Add { r, p } => {
                    let added = self.operand(p);
                    let held = &mut self.registers[r as usize];
                    held.value = held.value.wrapping_add(added.value);
                    held.reads.extend(added.reads);
                }
                SkipUnless { test, r, p, n } => {
                    self.condition = code[next].registers();
                    if !test.holds(self.registers[r as usize].value, self.operand(p).value) {
                        next += n as usize;
                    }
                }
                Assert { .. } => {}
                _ => {
                    self.access(Event { t: self.t, i: access });
                    access += 1;
                }
            }
            next += 1;
        }
    }

    fn access(&mut self, event: Event) {
        let Some(done) = did(self.execution, event) else { return };
        let target = done.instruction.target().filter(|_| !done.fence);
        if let (Some(r), Some(value)) = (target, done.found) {
            self.registers[r as usize] = Held { value, reads: BTreeSet::from([event]) };
        }
    }
}

/// An access as its thread did it, before its store reached memory.
fn did<'a>(execution: &'a Execution, event: Event) -> Option<&'a Done> {
    let own = |done: &&Done| done.event == event && done.queue != Queue::Out;
    execution.steps.iter().map(|step| &step.done).find(own)
}

/// The reads that a failed assertion of a thread comes from.
fn reads(execution: &Execution, t: u8, failure: &Failure) -> BTreeSet<Event> {
    let registers = Default::default();
    let mut run = Run { execution, t, registers, condition: Vec::new() };
    run.up_to(failure.at);
    let names = &execution.program.names;
    let statement = names.statement(t, failure.at);
    let code = &execution.program.threads[t as usize];
    // a statement that took several instructions compares in one above
    let first = (0..failure.at).rev().take_while(|at| statement.is_some() && names.statement(t, *at) == statement).last();
    let own = code[first.unwrap_or(failure.at)..=failure.at].iter().flat_map(Instruction::registers);
    let asked: Vec<u8> = if statement == Some("fail") { run.condition.clone() } else { own.collect() };
    asked.into_iter().flat_map(|r| run.registers[r as usize].reads.clone()).collect()
}

/// When a step did this: the access itself, or its store reaching memory.
fn time(execution: &Execution, event: Event, queue: impl Fn(Queue) -> bool) -> Option<usize> {
    execution.steps.iter().position(|step| step.done.event == event && queue(step.done.queue))
}

/// An access of a thread, for the eye: `second's store slot2 = 7 (#1)`.
fn called(execution: &Execution, event: Event) -> String {
    let what = did(execution, event).map_or(String::new(), |done| {
        let l = execution.program.names.location(done.location);
        let name = done.instruction.access().unwrap_or("");
        done.left.map_or(format!("{name} {l}"), |left| format!("{name} {l} = {}", number(left)))
    });
    format!("{}'s {what} (#{})", execution.program.names.thread(event.t), event.i)
}

/// What a read saw, and the next write of its location that it missed.
fn told(execution: &Execution, read: Event) -> Option<String> {
    let done = did(execution, read)?;
    let names = &execution.program.names;
    let (l, found) = (names.location(done.location), number(done.found?));
    let step = execution.steps.iter().find(|step| step.done.event == read)?;
    let writes = execution.graph.writes.get(&done.location).map_or(&[][..], Vec::as_slice);
    let (seen, behind) = match step.source? {
        Source::Initial => (format!("the initial {found}"), 0),
        Source::Write(write, ..) => {
            let seen = format!("{found} of {}", called(execution, write));
            (seen, writes.iter().position(|one| *one == write).map_or(0, |at| at + 1))
        }
    };
    let name = done.instruction.access().unwrap_or("");
    let own = format!("{}'s {name} {l} (#{}) saw {seen}", names.thread(read.t), read.i);
    let Some(missed) = writes[behind..].iter().find(|write| **write != read) else {
        return Some(format!("{own}, the last write of {l}"));
    };
    let at = time(execution, read, |_| true)?;
    let pending = time(execution, *missed, |queue| queue == Queue::In).is_some_and(|put| put < at);
    let when = if pending { "which was pending still" } else { "which comes later" };
    Some(format!("{own} and missed {}, {when}", called(execution, *missed)))
}

/// For each assertion that failed, which reads its values come from: a sentence each.
pub fn sentences(execution: &Execution) -> Vec<String> {
    let failed = execution.steps.iter().filter_map(|step| Some((step.done.event.t, step.done.failure?)));
    let all = execution.at_once.iter().copied().chain(failed);
    let mut sentences = Vec::new();
    for (t, failure) in all {
        let reads: Vec<String> = reads(execution, t, &failure).into_iter().filter_map(|read| told(execution, read)).collect();
        match reads.is_empty() {
            true => sentences.push(format!("{} fails whatever it reads", execution.program.names.thread(t))),
            false => sentences.extend(reads),
        }
    }
    sentences
}
