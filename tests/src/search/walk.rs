//! The list by a walk over every full schedule, ascending, which keeps the least of each class: plain Rust, unproved, without a rule that
//! skips a schedule. A step is made in place and taken back. A graph is two bytes for each access of the file, kept up step by step; all
//! graphs alike to one that was met stand in a hash set, so that every further schedule costs one look.
use super::state::{State, NONE};
use crate::oracle::decode::Program;
use crate::oracle::listing::{permitted, ROW};
use crate::oracle::machine::{Event, INITIAL};
use std::collections::HashSet;
use std::hash::{BuildHasherDefault, Hasher};

/// What the walk found: how many full schedules there are, and the rows of the listed, ascending, as the library gives them.
pub struct Walked {
    pub full: u64,
    pub rows: Vec<u8>,
}

impl Walked {
    pub fn listed(&self) -> u64 {
        (self.rows.len() / ROW) as u64
    }
}

/// A graph: of each access of the file what it reads from, and then of each its location and its place among the writes there.
type Graph = [u8; 48];

/// An access that does not write, or was not done.
const STILL: u8 = 0xff;

/// A quick hash of a graph, eight bytes at a time.
#[derive(Default)]
struct Quick(u64);

impl Hasher for Quick {
    fn write(&mut self, bytes: &[u8]) {
        for word in bytes.chunks_exact(8) {
            let word = u64::from_le_bytes(word.try_into().expect("eight bytes"));
            self.0 = (self.0.rotate_left(23) ^ word).wrapping_mul(0x9e37_79b9_7f4a_7c15);
        }
    }

    /// The length of every graph is the same.
    fn write_usize(&mut self, _: usize) {}

    fn finish(&self) -> u64 {
        self.0 ^ self.0 >> 32
    }
}

/// A permitted permutation: where it takes each access of the file, and each thread.
struct Moved {
    accesses: Vec<usize>,
    threads: Vec<u8>,
}

struct Walk<'a> {
    program: &'a Program,
    /// The number among all accesses of the file of each thread's first.
    first: Vec<usize>,
    permitted: Vec<Moved>,
    state: State,
    schedule: Vec<u8>,
    graph: Graph,
    /// How many writes each location has so far.
    written: [u8; 8],
    /// Every graph alike to one met so far.
    met: HashSet<Graph, BuildHasherDefault<Quick>>,
    found: Walked,
}

/// An event in one byte: its thread, then its number in the low four bits.
fn byte(event: Event) -> u8 {
    match event {
        INITIAL => 0xff,
        NONE => 0xfe,
        Event { t, i } => t << 4 | i,
    }
}

impl Walk<'_> {
    /// Every full schedule that begins with the steps made so far.
    fn visit(&mut self) {
        let mut full = true;
        for t in 0..self.program.threads.len() {
            let Some(access) = self.state.pending(self.program, t) else { continue };
            full = false;
            let l = access.location as usize;
            let slot = self.first[t] + self.state.threads[t].accesses as usize;
            let before = (self.state.threads[t], self.state.memory[l], self.state.last[l], self.written[l]);
            self.graph[slot] = byte(self.state.source(access));
            if access.writes {
                self.graph[24 + slot] = access.location * 24 + self.written[l];
                self.written[l] += 1;
            }
            self.state.step(self.program, t, access);
            self.schedule.push(t as u8);
            self.visit();
            self.schedule.pop();
            (self.state.threads[t], self.state.memory[l], self.state.last[l], self.written[l]) = before;
            self.graph[slot] = byte(NONE);
            self.graph[24 + slot] = STILL;
        }
        if full {
            self.meet();
        }
    }

    /// A full schedule: kept where no graph alike to its own was met.
    fn meet(&mut self) {
        self.found.full += 1;
        if self.met.contains(&self.graph) {
            return;
        }
        for permutation in &self.permitted {
            self.met.insert(exchanged(&self.graph, permutation));
        }
        let fails = self.state.threads.iter().any(|thread| thread.failed);
        self.found.rows.extend([self.schedule.len() as u8, fails as u8]);
        self.found.rows.extend(&self.schedule);
        self.found.rows.resize(self.found.rows.len().next_multiple_of(ROW), 0);
    }
}

/// The graph with its threads exchanged.
fn exchanged(graph: &Graph, permutation: &Moved) -> Graph {
    let mut moved = *graph;
    for (slot, &to) in permutation.accesses.iter().enumerate() {
        let source = graph[slot];
        moved[to] = if source < 0xfe { permutation.threads[source as usize >> 4] << 4 | source & 15 } else { source };
        moved[24 + to] = graph[24 + slot];
    }
    moved
}

/// All orders of the accesses of a program: no fewer than its full schedules.
pub fn orders(program: &Program) -> u64 {
    let (mut all, mut steps) = (1u64, 0);
    for code in &program.threads {
        for k in 1..=code.iter().filter(|instruction| instruction.is_access()).count() as u64 {
            steps += 1;
            all = all.saturating_mul(steps) / k;
        }
    }
    all
}

/// Walks every full schedule.
pub fn walk(program: &Program) -> Walked {
    let accesses = |t: usize| program.threads[t].iter().filter(|instruction| instruction.is_access()).count();
    let first: Vec<usize> = (0..program.threads.len()).map(|t| (0..t).map(accesses).sum()).collect();
    // a thread is exchanged only with one of equal code, so its accesses find room there
    let slots = |to: u8, t: usize| (0..accesses(t)).map(|i| first[to as usize] + i).collect::<Vec<usize>>();
    let moved =
        |threads: Vec<u8>| Moved { accesses: threads.iter().enumerate().flat_map(|(t, &to)| slots(to, t)).collect(), threads };
    let permitted = permitted(program).into_iter().map(moved).collect();
    let mut graph = [byte(NONE); 48];
    graph[24..].fill(STILL);
    let mut walk = Walk {
        program,
        first,
        permitted,
        state: State::new(program),
        schedule: Vec::new(),
        graph,
        written: [0; 8],
        met: HashSet::default(),
        found: Walked { full: 0, rows: Vec::new() },
    };
    walk.visit();
    walk.found
}
