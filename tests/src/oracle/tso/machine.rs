//! Steps and schedules under total store order: the machine of Owens, Sarkar and Sewell, by the words of document 02.
use crate::oracle::decode::{Instruction, Program};
use crate::oracle::graph::Graph;
use crate::oracle::machine::{opened, Event, Thread, INITIAL};
use crate::oracle::{refused, Refusal};

/// The byte of a step that moves thread t's oldest pending store to memory is this plus t.
pub const MOVE: u8 = 0x10;

/// A store that has not reached memory.
#[derive(Clone, Copy, Debug, PartialEq, Eq, Hash)]
pub struct Pending {
    pub event: Event,
    pub location: u8,
    pub value: u32,
}

/// The whole machine: threads, each one's queue of pending stores, oldest first, memory, and the graph of what was done.
#[derive(Clone, Debug)]
pub struct Machine<'a> {
    pub program: &'a Program,
    pub threads: Vec<Thread>,
    pub queues: Vec<Vec<Pending>>,
    pub memory: [u32; 8],
    /// Each read with its source, and the writes of each location in the order of reaching memory.
    pub graph: Graph,
}

impl<'a> Machine<'a> {
    pub fn new(program: &'a Program) -> Machine<'a> {
        let threads: Vec<Thread> = program.threads.iter().map(|code| opened(code)).collect();
        let queues = vec![Vec::new(); threads.len()];
        Machine { program, threads, queues, memory: program.memory, graph: Graph::default() }
    }

    /// May this byte be the next step? Of a thread that has not ended, and whose queue is empty where its next access is a fetch and
    /// add or a compare and swap; or of a queue that is not empty.
    pub fn may(&self, byte: u8) -> bool {
        if byte >= MOVE {
            return self.queues.get((byte - MOVE) as usize).is_some_and(|queue| !queue.is_empty());
        }
        let t = byte as usize;
        let Some(thread) = self.threads.get(t) else { return false };
        let code = &self.program.threads[t];
        !thread.ended(code) && (self.queues[t].is_empty() || !is_locked(&code[thread.next]))
    }

    /// The bytes that may be the next step, ascending.
    pub fn allowed(&self) -> Vec<u8> {
        let threads = 0..self.threads.len() as u8;
        threads.clone().chain(threads.map(|t| MOVE + t)).filter(|byte| self.may(*byte)).collect()
    }

    /// The step of a byte that may be the next.
    pub fn step(&mut self, byte: u8) {
        if byte >= MOVE {
            let Pending { event, location, value } = self.queues[(byte - MOVE) as usize].remove(0);
            return self.reach(event, location, value);
        }
        let t = byte as usize;
        let code = &self.program.threads[t];
        let event = Event { t: byte, i: self.threads[t].accesses };
        let location = self.threads[t].location(code);
        let locked = is_locked(&code[self.threads[t].next]);
        // the newest own pending store to the location, else memory
        let own = self.queues[t].iter().rev().find(|pending| pending.location == location);
        let latest = self.graph.writes.get(&location).and_then(|writes| writes.last()).copied().unwrap_or(INITIAL);
        let (found, source) = own.map_or((self.memory[location as usize], latest), |own| (own.value, own.event));
        let effect = self.threads[t].access(code, found);
        if effect.read.is_some() {
            self.graph.reads.insert(event, source);
        }
        match effect.written {
            Some(value) if locked => self.reach(event, location, value),
            Some(value) => self.queues[t].push(Pending { event, location, value }),
            None => {}
        }
    }

    /// A write reaches memory.
    fn reach(&mut self, event: Event, location: u8, value: u32) {
        self.memory[location as usize] = value;
        self.graph.writes.entry(location).or_default().push(event);
    }

    /// Have all threads ended, and are all queues empty?
    pub fn full(&self) -> bool {
        let ended = self.threads.iter().zip(&self.program.threads).all(|(thread, code)| thread.ended(code));
        ended && self.queues.iter().all(Vec::is_empty)
    }

    /// Has some assertion failed?
    pub fn fails(&self) -> bool {
        self.threads.iter().any(|thread| thread.failed)
    }
}

/// A fetch and add or a compare and swap.
fn is_locked(instruction: &Instruction) -> bool {
    matches!(instruction, Instruction::FetchAdd { .. } | Instruction::CompareSwap { .. })
}

/// Runs a full schedule: refusal 20 at the first byte that may be no step, then 21 where it is not full.
pub fn run_full<'a>(program: &'a Program, schedule: &[u8]) -> Result<Machine<'a>, Refusal> {
    let mut machine = Machine::new(program);
    for (k, &byte) in schedule.iter().enumerate() {
        if !machine.may(byte) {
            return refused(20, k);
        }
        machine.step(byte);
    }
    if machine.full() {
        Ok(machine)
    } else {
        refused(21, schedule.len())
    }
}
