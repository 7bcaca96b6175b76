//! One listed execution, ready to be shown: each step with its values and with the write that its read saw.
use crate::ask::{self, Listed, Refusal};
use crate::graph::{Event, Graph};
use crate::machine::{Done, Failure, Machine, Queue};
use crate::program::{number, Comparison, Instruction, Operand, Program, Written, FENCE};
use crate::schedule::Schedule;
use std::collections::BTreeMap;

/// A step: what it did, and for a read the write that it saw.
pub struct Step {
    pub done: Done,
    pub source: Option<Source>,
}

/// The write that a read saw.
#[derive(Clone, Copy, Debug, PartialEq, Eq)]
pub enum Source {
    Initial,
    /// A write, and whether it was pending still in the queue of the read's own thread.
    Write(Event, &'static str, bool),
}

pub struct Execution<'a> {
    pub program: &'a Program,
    /// The place in the list, from 1; none for a schedule that was given and not looked for in the list.
    pub position: Option<u64>,
    pub schedule: Schedule,
    /// Threads whose assertion failed before the first step.
    pub at_once: Vec<(u8, Failure)>,
    pub steps: Vec<Step>,
    pub graph: Graph,
    pub fails: bool,
    /// So many executions are alike to it, itself counted: the different graphs of its class.
    pub executions: u64,
    /// The values at the end: of the locations, and of each thread's registers.
    pub memory: [u32; 8],
    pub registers: Vec<[u32; 4]>,
}

impl<'a> Execution<'a> {
    /// A listed schedule. Whether it fails is the library's word, and the replay must fit that.
    pub fn of(file: &[u8], program: &'a Program, position: u64, listed: &Listed) -> Result<Execution<'a>, Refusal> {
        let mut execution = Execution::replayed(file, program, &listed.schedule)?;
        assert_eq!(execution.fails, listed.fails, "the replay fails exactly where the library says so");
        execution.position = Some(position);
        Ok(execution)
    }

    /// Any full schedule. The values are replayed; the sources are those of the library's graph, and the replay must fit them.
    pub fn replayed(file: &[u8], program: &'a Program, schedule: &[u8]) -> Result<Execution<'a>, Refusal> {
        let mut graph = Graph::of_text(&ask::graph(program.model, file, schedule)?);
        let executions = ask::class(program.model, file, schedule)?;
        let starting = program.memory();
        let mut machine = Machine::new(program);
        let at_once = program.numbers().filter_map(|t| Some((t, machine.failure(t)?))).collect();
        let mut left: BTreeMap<Event, Done> = BTreeMap::new();
        let mut steps = Vec::new();
        for &byte in schedule {
            let done = machine.step(byte);
            let source = done.found.map(|found| {
                let source = *graph.reads.get(&done.event).expect("each read stands in the library's graph");
                let seen = source.map_or(Some(starting[done.location as usize]), |write| left[&write].left);
                assert_eq!(seen, Some(found), "the replay and the library's graph fit");
                let write = |w: Event| Source::Write(w, left[&w].instruction.access().unwrap_or(""), left[&w].queue == Queue::In);
                source.map_or(Source::Initial, write)
            });
            left.insert(done.event, done);
            steps.push(Step { done, source: source.filter(|_| !done.fence) });
        }
        graph.reads.retain(|event, _| !left[event].fence);
        let (memory, registers) = machine.values();
        let (schedule, fails) = (schedule.iter().copied().collect(), machine.fails());
        Ok(Execution { program, position: None, schedule, at_once, steps, graph, fails, executions, memory, registers })
    }

    /// How many executions it stands for, for the eye; nothing where no threads are declared alike.
    pub fn standing(&self) -> Option<String> {
        let word = if self.executions == 1 { "execution" } else { "executions" };
        (!self.program.alike.is_empty()).then(|| format!("stands for {} {word}", self.executions))
    }

    /// What it is called on a page: its place in the list, or its schedule.
    pub fn name(&self) -> String {
        self.position.map_or(self.schedule.told(), |position| position.to_string())
    }

    /// The location of an access that the execution did.
    pub fn location(&self, event: Event) -> u8 {
        self.steps.iter().find(|step| step.done.event == event).map_or(0, |step| step.done.location)
    }

    /// What the end is, for the eye: the locations and the registers that the program names, each with its value.
    pub fn end(&self) -> (Vec<String>, Vec<String>) {
        let Program { names, .. } = self.program;
        let value = |l: u8| format!("{} = {}", names.location(l), number(self.memory[l as usize]));
        let memory = self.program.locations().into_iter().map(value).collect();
        let of_thread = |t: u8| {
            let value = move |r: u8| {
                let value = number(self.registers[t as usize][r as usize]);
                format!("{}.{} = {value}", names.thread(t), names.register(t, r))
            };
            self.program.registers(t).into_iter().map(value)
        };
        (memory, self.program.numbers().flat_map(of_thread).collect())
    }

    /// The access for the eye, with its values: `load x3 -> r0 = 5`.
    pub fn access(&self, done: &Done) -> String {
        let names = &self.program.names;
        let l = names.location(done.location);
        let [first, second] = done.operands.map(number);
        let found = number(done.found.unwrap_or(0));
        let register = |r| names.register(done.event.t, r);
        match (done.instruction, done.left) {
            _ if done.fence => FENCE.to_string(),
            (Instruction::Load { r, .. }, _) => format!("load {l} -> {} = {found}", register(r)),
            (Instruction::FetchAdd { r, .. }, Some(left)) => {
                format!("fetch_add {l} {first} -> {} = {found}, {l} = {}", register(r), number(left))
            }
            (Instruction::FetchAdd { r, .. }, None) => format!("fetch_add {l} {first} -> {} = {found}, reads", register(r)),
            (Instruction::CompareSwap { r, .. }, Some(left)) => {
                format!("cas {l} {first} {second} -> {} = {found}, {l} = {}", register(r), number(left))
            }
            (Instruction::CompareSwap { r, .. }, None) => {
                format!("cas {l} {first} {second} -> {} = {found}, no swap", register(r))
            }
            _ => match done.queue {
                Queue::Aside => format!("store {l} = {first}"),
                Queue::In => format!("store {l} = {first}, pending"),
                Queue::Out => format!("store {l} = {first} reaches memory"),
            },
        }
    }

    /// The statement of an access as the program's text has it, with its line; none for a program file.
    pub fn written(&self, done: &Done) -> Option<&Written> {
        self.program.names.written(done.event.t, done.at)
    }

    /// The write that a read saw, for the eye: `T0 store #2` or `initial`; a fetch and add of zero, which only reads, is told apart.
    pub fn source(&self, step: &Step) -> String {
        let seen = match &step.source {
            None => return String::new(),
            Some(Source::Initial) => "initial".to_string(),
            Some(Source::Write(event, name, pending)) => {
                let pending = if *pending { ", pending" } else { "" };
                format!("{} {name} #{}{pending}", self.program.names.thread(event.t), event.i)
            }
        };
        match (step.done.instruction, step.done.left) {
            (Instruction::FetchAdd { .. }, None) => format!("reads {seen}"),
            _ => seen,
        }
    }

    /// A failed assertion for the eye, as the program's text has it.
    pub fn failure(&self, t: u8, failure: &Failure) -> String {
        let names = &self.program.names;
        let Failure { at, test, r, asserted, value, wanted } = failure;
        let (name, sign) = (names.register(t, *r), test.signs().0);
        let statement = names.statement(t, *at);
        let own = names.written(t, *at).map(|written| written.text.as_str());
        // a statement that compares as two's complement may end in another assertion
        let signed = statement.is_some_and(|statement| statement.contains(['<', '>']));
        let read = |value: &u32| if signed { Comparison::AtMost.number(*value) } else { test.number(*value) };
        match (statement, asserted) {
            (Some("fail"), _) => "fail FAILS".to_string(),
            (Some(statement), _) => format!("{statement} FAILS: {name} = {}", read(value)),
            (None, Operand::Register(p)) => {
                let other = names.register(t, *p);
                let plain = format!("assert {name} {sign} {other}");
                format!("{} FAILS: {name} = {}, {other} = {}", own.unwrap_or(&plain), read(value), read(wanted))
            }
            (None, Operand::Constant(_)) => {
                let plain = format!("assert {name} {sign} {}", names.compared(t, *test, *asserted));
                format!("{} FAILS: {name} = {}", own.unwrap_or(&plain), read(value))
            }
        }
    }
}
