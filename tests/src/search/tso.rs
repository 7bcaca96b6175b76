//! A search for the listed schedules under total store order in plain Rust: depth first, step bytes ascending, with the rules that cut
//! what has a smaller alike completion. It knows, for each step, the set of earlier steps that must stay before it.
use crate::oracle::decode::{Instruction, Program};
use crate::oracle::listing::permitted;
use crate::oracle::machine::{opened, Event, Thread, INITIAL};

const MOVE: u8 = 0x10;
const NOBODY: u8 = 0xff;

/// A pending store: its event's number, its location, its value, and the step by which it went into the queue.
#[derive(Clone, Copy, Default)]
struct Pending {
    i: u8,
    location: u8,
    value: u32,
    step: u8,
}

#[derive(Clone, Copy, PartialEq, Eq)]
enum Kind {
    Store,
    Load,
    Locked,
}

/// A beginning of a schedule, what it comes to, and the sets by which the next step's set is known.
#[derive(Clone)]
struct Place {
    threads: [Thread; 6],
    memory: [u32; 8],
    latest: [Event; 8],
    queues: [[Pending; 16]; 6],
    /// Of each queue the oldest and the end.
    ends: [(u8, u8); 6],
    /// Of each thread the sources of its accesses, and whether a write of it has reached memory.
    sources: [[Event; 16]; 6],
    put: [bool; 6],
    accessed: [u32; 6],
    moved: [u32; 6],
    written: [u32; 8],
    read: [u32; 8],
    forwarded: [u32; 32],
    bytes: [u8; 32],
    masks: [u32; 32],
    /// Before each step the smallest twin of each thread.
    twins: [[u8; 6]; 33],
    steps: usize,
}

pub struct Search<'a> {
    program: &'a Program,
    permutations: Vec<Vec<u8>>,
    most: u64,
    /// How many beginnings were entered, how many full schedules reached, and how many of these refused by the test at the end.
    pub prefixes: u64,
    pub reached: u64,
    pub refused: u64,
}

fn access(instruction: &Instruction) -> Option<(Kind, u8)> {
    match *instruction {
        Instruction::Store { l, .. } => Some((Kind::Store, l)),
        Instruction::Load { l, .. } => Some((Kind::Load, l)),
        Instruction::FetchAdd { l, .. } | Instruction::CompareSwap { l, .. } => Some((Kind::Locked, l)),
        _ => None,
    }
}

/// Could this byte, with this set, move left past a greater one?
fn late(bytes: &[u8], byte: u8, mask: u32) -> bool {
    (0..bytes.len()).rev().take_while(|i| mask >> i & 1 == 0).any(|i| bytes[i] > byte)
}

/// Does the least order of the steps, moved by this permutation, come before the steps themselves?
fn beaten(bytes: &[u8], masks: &[u32], to: &[u8]) -> bool {
    let mut taken = 0u32;
    for &byte in bytes {
        let ready = (0..bytes.len()).filter(|i| taken >> i & 1 == 0 && masks[*i] & !taken == 0);
        let least = ready.map(|i| (bytes[i] & 0xf0 | to[(bytes[i] & 15) as usize], i)).min().expect("a step is left");
        if least.0 != byte {
            return least.0 < byte;
        }
        taken |= 1 << least.1;
    }
    false
}

impl Place {
    fn new(program: &Program) -> Place {
        let mut threads = [Thread::default(); 6];
        threads.iter_mut().zip(&program.threads).for_each(|(thread, code)| *thread = opened(code));
        Place {
            threads,
            memory: program.memory,
            latest: [INITIAL; 8],
            queues: [[Pending::default(); 16]; 6],
            ends: [(0, 0); 6],
            sources: [[INITIAL; 16]; 6],
            put: [false; 6],
            accessed: [0; 6],
            moved: [0; 6],
            written: [0; 8],
            read: [0; 8],
            forwarded: [0; 32],
            bytes: [0; 32],
            masks: [0; 32],
            twins: [[NOBODY; 6]; 33],
            steps: 0,
        }
    }

    fn next(&self, program: &Program, t: usize) -> Option<(Kind, u8)> {
        let code = &program.threads[t];
        if self.threads[t].ended(code) {
            return None;
        }
        access(&code[self.threads[t].next])
    }

    fn pending(&self, t: usize) -> &[Pending] {
        &self.queues[t][self.ends[t].0 as usize..self.ends[t].1 as usize]
    }

    fn may(&self, program: &Program, byte: u8) -> bool {
        let t = (byte % MOVE) as usize;
        if byte >= MOVE {
            return !self.pending(t).is_empty();
        }
        self.next(program, t).is_some_and(|(kind, _)| kind != Kind::Locked || self.pending(t).is_empty())
    }

    /// Would a read of thread t at this location find what another thread wrote, or nobody?
    fn foreign(&self, t: usize, l: usize) -> u32 {
        if self.latest[l].t == t as u8 {
            0
        } else {
            self.written[l]
        }
    }

    /// Does the next access of a compare and swap or a fetch and add write?
    fn writes(&self, program: &Program, t: usize, l: usize) -> bool {
        let mut thread = self.threads[t];
        thread.access(&program.threads[t], self.memory[l]).written.is_some()
    }

    /// The set of a byte that may step.
    fn mask(&self, program: &Program, byte: u8) -> u32 {
        let t = (byte % MOVE) as usize;
        if byte >= MOVE {
            let Pending { location, step, .. } = self.pending(t)[0];
            let l = location as usize;
            return 1 << step | self.moved[t] | self.written[l] | self.read[l];
        }
        let (kind, l) = self.next(program, t).expect("it may step");
        let (own, l) = (self.accessed[t], l as usize);
        match kind {
            Kind::Store => own,
            Kind::Load if self.pending(t).iter().any(|pending| pending.location as usize == l) => own,
            Kind::Load => own | self.foreign(t, l),
            Kind::Locked if self.writes(program, t, l) => own | self.moved[t] | self.written[l] | self.read[l],
            Kind::Locked => own | self.moved[t] | self.foreign(t, l),
        }
    }

    fn step(&mut self, program: &Program, byte: u8, mask: u32) {
        let (t, bit, step) = ((byte % MOVE) as usize, 1u32 << self.steps, self.steps);
        self.bytes[step] = byte;
        self.masks[step] = mask;
        self.steps += 1;
        if byte >= MOVE {
            let Pending { i, location, value, step } = self.pending(t)[0];
            self.ends[t].0 += 1;
            self.moved[t] |= bit;
            self.reach(t, i, location as usize, value, bit);
            self.read[location as usize] |= self.forwarded[step as usize];
            return;
        }
        let (kind, location) = self.next(program, t).expect("it may step");
        let (i, l) = (self.threads[t].accesses, location as usize);
        let own = self.pending(t).iter().rev().find(|pending| pending.location == location).copied();
        let (found, source) = own.map_or((self.memory[l], self.latest[l]), |own| (own.value, Event { t: t as u8, i: own.i }));
        let written = self.threads[t].access(&program.threads[t], found).written;
        self.accessed[t] |= bit;
        if kind == Kind::Store {
            let value = written.expect("a store writes");
            self.queues[t][self.ends[t].1 as usize] = Pending { i, location, value, step: step as u8 };
            self.ends[t].1 += 1;
            return;
        }
        self.sources[t][i as usize] = source;
        match own {
            Some(own) => self.forwarded[own.step as usize] |= bit,
            None => self.read[l] |= bit,
        }
        if let Some(value) = written {
            self.reach(t, i, l, value, bit);
        }
    }

    fn reach(&mut self, t: usize, i: u8, l: usize, value: u32, bit: u32) {
        self.memory[l] = value;
        self.latest[l] = Event { t: t as u8, i };
        self.written[l] |= bit;
        self.put[t] = true;
    }

    /// Are these threads of one `02` line in the same situation: as many accesses, no write in memory, the same sources, own ones by
    /// their number?
    fn are_twins(&self, u: usize, t: usize) -> bool {
        let done = self.threads[t].accesses as usize;
        let by_number = |thread: usize, event: Event| if event.t as usize == thread { (6, event.i) } else { (event.t, event.i) };
        self.threads[u].accesses as usize == done
            && !self.put[u]
            && !self.put[t]
            && (0..done).all(|i| by_number(u, self.sources[u][i]) == by_number(t, self.sources[t][i]))
    }

    /// Could something left to other threads have to stay before this late byte?
    fn is_woken(&self, program: &Program, byte: u8) -> bool {
        let t = (byte % MOVE) as usize;
        let (kind, location) = match byte >= MOVE {
            true => (Kind::Locked, self.pending(t)[0].location),
            false => self.next(program, t).expect("it may step"),
        };
        let left = |other: usize| {
            let thread = &self.threads[other];
            let code = if thread.failed { &[][..] } else { program.threads[other].get(thread.next..).unwrap_or(&[]) };
            let at = |wanted: fn(Kind) -> bool| code.iter().filter_map(access).any(|(kind, l)| l == location && wanted(kind));
            let puts = self.pending(other).iter().any(|pending| pending.location == location) || at(|kind| kind != Kind::Load);
            puts || (kind == Kind::Locked && at(|kind| kind != Kind::Store))
        };
        kind != Kind::Store && (0..program.threads.len()).any(|other| other != t && left(other))
    }
}

impl<'a> Search<'a> {
    pub fn new(program: &'a Program) -> Search<'a> {
        Search { program, permutations: permitted(program), most: u64::MAX, prefixes: 0, reached: 0, refused: 0 }
    }

    /// Hands each listed schedule, ascending, with whether it fails, to `each`.
    pub fn list(&mut self, each: &mut dyn FnMut(&[u8], bool)) {
        self.list_within(u64::MAX, each);
    }

    /// The same as long as so many beginnings are enough; says whether they were.
    pub fn list_within(&mut self, prefixes: u64, each: &mut dyn FnMut(&[u8], bool)) -> bool {
        self.most = prefixes;
        self.walk(Place::new(self.program), each);
        self.prefixes <= prefixes
    }

    fn bytes(&self) -> impl Iterator<Item = u8> {
        let threads = self.program.threads.len() as u8;
        (0..threads).chain((0..threads).map(|t| MOVE + t))
    }

    fn walk(&mut self, mut place: Place, each: &mut dyn FnMut(&[u8], bool)) {
        self.prefixes += 1;
        if self.prefixes > self.most {
            return;
        }
        place.twins[place.steps] = self.twins(&place);
        let mut full = true;
        for byte in self.bytes() {
            if !place.may(self.program, byte) {
                continue;
            }
            full = false;
            let mask = place.mask(self.program, byte);
            if self.is_cut(&place, byte, mask) {
                continue;
            }
            let mut next = place.clone();
            next.step(self.program, byte, mask);
            if !self.is_asleep(&next) {
                self.walk(next, each);
            }
        }
        if full && (0..self.program.threads.len()).all(|t| place.next(self.program, t).is_none()) {
            self.reached += 1;
            let (bytes, masks) = (&place.bytes[..place.steps], &place.masks[..place.steps]);
            if self.permutations.iter().any(|to| beaten(bytes, masks, to)) {
                self.refused += 1;
            } else {
                each(bytes, place.threads.iter().any(|thread| thread.failed));
            }
        }
    }

    /// The smallest twin of each thread.
    fn twins(&self, place: &Place) -> [u8; 6] {
        let mut twins = [NOBODY; 6];
        for line in &self.program.alike {
            for (k, &t) in line.iter().enumerate() {
                let twin = line[..k].iter().find(|&&u| place.are_twins(u as usize, t as usize));
                twins[t as usize] = twin.copied().unwrap_or(NOBODY);
            }
        }
        twins
    }

    /// R1, R2, and R2 far for a move.
    fn is_cut(&self, place: &Place, byte: u8, mask: u32) -> bool {
        let (bytes, t) = (&place.bytes[..place.steps], (byte % MOVE) as usize);
        if place.twins[place.steps][t] != NOBODY || late(bytes, byte, mask) {
            return true;
        }
        let passed = (0..bytes.len()).rev().take_while(|i| mask >> i & 1 == 0);
        byte >= MOVE && passed.into_iter().any(|i| place.twins[i][t] != NOBODY && bytes[i] > MOVE + place.twins[i][t])
    }

    /// R3: some byte that may step is late, and nothing wakes it.
    fn is_asleep(&self, place: &Place) -> bool {
        self.bytes().filter(|byte| place.may(self.program, *byte)).any(|byte| {
            let mask = place.mask(self.program, byte);
            late(&place.bytes[..place.steps], byte, mask) && !place.is_woken(self.program, byte)
        })
    }
}
