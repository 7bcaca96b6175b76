//! The list under total store order by a search in plain Rust, unproved: what the library's search is measured against. Depth first, bytes
//! ascending (0 to 5 a thread's access, 16 to 21 the move of its oldest pending store), one copy of the place a step. A step is given up
//! where it comes late (R1), where a smaller twin could take it (R2), where a move could have gone to a place at which a smaller twin
//! stood (R2 far), or where it leaves a byte asleep for good (R3, one byte at a time). What is reached in full is listed.
use super::alike;
use super::place::Left;
use crate::oracle::decode::{Instruction, Program};
use crate::oracle::machine::{opened, Thread};

/// The word of a thread that can have no twin any more, and the least that has no room for an access.
pub(super) const LONE: u64 = 1 << 60;
const FULL: u64 = 1 << 54;
/// Digits of a word: a store; what memory held, by the number of the step that put it there; a pending store of its own, by its number.
const STORED: u64 = 1;
pub(super) const FOUND: u64 = 2;
const OWN: u64 = 40;

#[derive(Clone, Copy, Default)]
pub(super) struct Pending {
    number: u8,
    pub(super) location: u8,
    pub(super) value: u32,
}

/// A step as others have to wait for it: its thread, whether it is a move, where, whether it puts, whether it read memory.
#[derive(Clone, Copy)]
pub(super) struct Step {
    thread: usize,
    moves: bool,
    pub(super) location: u8,
    puts: bool,
    pub(super) looks: bool,
    /// A store into an empty queue: the move behind it is its own.
    first: bool,
}

#[derive(Clone, Copy)]
pub struct Place {
    pub(super) threads: [Thread; 6],
    pub(super) memory: [u32; 8],
    pub(super) stamps: [u8; 8],
    pub(super) words: [u64; 6],
    /// The pending stores: thread t's from `head` to `tail` of its own part.
    slots: [Pending; 16],
    head: [u8; 6],
    tail: [u8; 6],
    /// The bytes that may step, and those whose step would come late, a bit for each; the threads whose move is given up by R2 far.
    pub(super) enabled: u32,
    pub(super) late: u32,
    pub(super) far: u8,
}

/// A search over one program, with the prefix that it stands at.
pub struct Search<'a> {
    program: &'a Program,
    left: Left,
    pub(super) alike: [u8; 6],
    base: [u8; 6],
    schedule: [u8; 32],
    pub prefixes: u64,
    pub dead_ends: u64,
    pub reached: u64,
}

impl<'a> Search<'a> {
    /// Of a program with at most 16 accesses.
    pub fn new(program: &'a Program) -> Search<'a> {
        let mut base = [0; 6];
        for t in 1..6 {
            let before = program.threads.get(t - 1).map_or(0, |code| code.iter().filter(|i| i.is_access()).count());
            base[t] = base[t - 1] + before as u8;
        }
        Search {
            program,
            left: Left::of(program),
            alike: alike(program),
            base,
            schedule: [0; 32],
            prefixes: 0,
            dead_ends: 0,
            reached: 0,
        }
    }

    /// Hands the listed schedules, ascending, each with whether it fails, to `each`.
    pub fn list(&mut self, each: &mut impl FnMut(&[u8], bool)) {
        let place = self.start();
        self.visit(&place, 0, each);
    }

    pub fn count(&mut self) -> (u64, u64) {
        let mut counts = (0, 0);
        self.list(&mut |_, fails| {
            counts.0 += 1;
            counts.1 += fails as u64;
        });
        counts
    }

    pub(super) fn start(&self) -> Place {
        let mut place = Place {
            threads: [Thread::default(); 6],
            memory: self.program.memory,
            stamps: [0; 8],
            words: [0; 6],
            slots: [Pending::default(); 16],
            head: [0; 6],
            tail: [0; 6],
            enabled: 0,
            late: 0,
            far: 0,
        };
        for (t, code) in self.program.threads.iter().enumerate() {
            place.threads[t] = opened(code);
            place.enabled |= self.enabled(&place, t);
        }
        place
    }

    /// The bytes of a thread that may step.
    fn enabled(&self, place: &Place, t: usize) -> u32 {
        let (thread, code) = (&place.threads[t], &self.program.threads[t]);
        let empty = place.head[t] == place.tail[t];
        let access = !thread.ended(code) && (empty || !locks(code[thread.next]));
        (access as u32) << t | ((!empty) as u32) << (16 + t)
    }

    fn visit<F: FnMut(&[u8], bool)>(&mut self, place: &Place, depth: usize, each: &mut F) {
        self.prefixes += 1;
        if place.enabled == 0 {
            self.reached += 1;
            each(&self.schedule[..depth], place.threads.iter().any(|thread| thread.failed));
            return;
        }
        let twins = self.smaller_twins(place);
        let mut on_time = place.enabled & !place.late & !((place.far as u32) << 16);
        let mut dead = true;
        while on_time != 0 {
            let b = on_time.trailing_zeros() as usize;
            on_time &= on_time - 1;
            if twins[b % 16] != 0xff {
                continue;
            }
            let (next, _) = self.behind(place, b, depth as u8 + 1, &twins);
            if next.late != 0 && self.some_asleep(&next) {
                continue;
            }
            dead = false;
            self.schedule[depth] = b as u8;
            self.visit(&next, depth + 1, each);
        }
        self.dead_ends += dead as u64;
    }

    /// The smallest twin of each thread, or ff.
    pub(super) fn smaller_twins(&self, place: &Place) -> [u8; 6] {
        let mut twins = [0xff; 6];
        for (t, twin) in twins.iter_mut().enumerate() {
            let mut smaller = self.alike[t] & ((1 << t) - 1);
            while smaller != 0 {
                let u = smaller.trailing_zeros() as usize;
                smaller &= smaller - 1;
                if place.words[u] == place.words[t] {
                    *twin = u as u8;
                    break;
                }
            }
        }
        twins
    }

    /// The place behind the step of a byte, and the step.
    pub(super) fn behind(&self, place: &Place, b: usize, number: u8, twins: &[u8; 6]) -> (Place, Step) {
        let mut next = *place;
        let t = b % 16;
        let step = if b < 16 { self.access(&mut next, t, number) } else { self.moved(&mut next, t, number) };
        next.enabled = next.enabled & !(1 << t | 1 << (16 + t)) | self.enabled(&next, t);
        let mut left = (place.late | ((1 << b) - 1)) & next.enabled & !(1 << b);
        next.late = left;
        while left != 0 {
            let c = left.trailing_zeros() as usize;
            left &= left - 1;
            if self.waits(&next, step, c) {
                next.late &= !(1 << c);
            }
        }
        let mut far = 0;
        for (t, twin) in twins.iter().enumerate() {
            let here = place.far >> t & 1 == 1 || (*twin != 0xff && 16 + (*twin as usize) < b);
            if here && b != 16 + t && next.enabled >> (16 + t) & 1 == 1 && !self.waits(&next, step, 16 + t) {
                far |= 1 << t;
            }
        }
        next.far = far;
        (next, step)
    }

    /// What is pending, oldest first.
    pub(super) fn queue<'b>(&self, place: &'b Place, t: usize) -> &'b [Pending] {
        &place.slots[(self.base[t] + place.head[t]) as usize..(self.base[t] + place.tail[t]) as usize]
    }

    fn newest(&self, place: &Place, t: usize, l: u8) -> Option<Pending> {
        self.queue(place, t).iter().rev().find(|entry| entry.location == l).copied()
    }

    fn access(&self, next: &mut Place, t: usize, number: u8) -> Step {
        let code = &self.program.threads[t];
        let instruction = code[next.threads[t].next];
        let l = next.threads[t].location(code);
        let own = self.newest(next, t, l);
        let found = own.map_or(next.memory[l as usize], |entry| entry.value);
        let first = next.head[t] == next.tail[t];
        let which = next.threads[t].accesses;
        let effect = next.threads[t].access(code, found);
        let word = next.words[t];
        let digit = match own {
            _ if effect.read.is_none() => STORED,
            Some(entry) => OWN + entry.number as u64,
            None => FOUND + next.stamps[l as usize] as u64,
        };
        next.words[t] = if word < FULL { word * 64 + digit } else { LONE + t as u64 };
        let locked = locks(instruction);
        if let Some(value) = effect.written {
            if locked {
                self.put(next, t, l, value, number);
            } else {
                next.slots[(self.base[t] + next.tail[t]) as usize] = Pending { number: which, location: l, value };
                next.tail[t] += 1;
            }
        }
        let puts = locked && effect.written.is_some();
        let store = effect.read.is_none();
        Step { thread: t, moves: false, location: l, puts, looks: !store && own.is_none(), first: store && first }
    }

    fn moved(&self, next: &mut Place, t: usize, number: u8) -> Step {
        let entry = next.slots[(self.base[t] + next.head[t]) as usize];
        next.head[t] += 1;
        self.put(next, t, entry.location, entry.value, number);
        Step { thread: t, moves: true, location: entry.location, puts: true, looks: false, first: false }
    }

    fn put(&self, next: &mut Place, t: usize, l: u8, value: u32, number: u8) {
        next.memory[l as usize] = value;
        next.stamps[l as usize] = number;
        next.words[t] = LONE + t as u64;
    }

    /// Must the byte c, which may step behind it, stay behind the step just taken?
    fn waits(&self, place: &Place, step: Step, c: usize) -> bool {
        let t = c % 16;
        if c >= 16 {
            let oldest = place.slots[(self.base[t] + place.head[t]) as usize];
            let own = !step.moves && t == step.thread && step.first;
            return own || (oldest.location == step.location && (step.puts || step.looks));
        }
        let code = &self.program.threads[t];
        let instruction = code[place.threads[t].next];
        if locks(instruction) && step.moves && t == step.thread {
            return true;
        }
        let Instruction::Store { .. } = instruction else {
            if place.threads[t].location(code) != step.location {
                return false;
            }
            let looks = self.newest(place, t, step.location).is_none();
            let reads = step.puts && looks && t != step.thread;
            let puts = locks(instruction) && self.writes(place, t, instruction);
            return reads || (puts && (step.puts || step.looks));
        };
        false
    }

    /// Would this locked access write if it were done now?
    fn writes(&self, place: &Place, t: usize, instruction: Instruction) -> bool {
        match instruction {
            Instruction::FetchAdd { p, .. } => place.threads[t].value(p) != 0,
            Instruction::CompareSwap { l, e, .. } => place.memory[l as usize] == place.threads[t].value(e),
            _ => false,
        }
    }

    /// R3: is there a byte that is late and that nothing left to other threads can make wait?
    pub(super) fn some_asleep(&self, place: &Place) -> bool {
        let mut late = place.late;
        while late != 0 {
            let c = late.trailing_zeros() as usize;
            late &= late - 1;
            let t = c % 16;
            let (l, reads) = if c >= 16 {
                (place.slots[(self.base[t] + place.head[t]) as usize].location, true)
            } else {
                let code = &self.program.threads[t];
                match code[place.threads[t].next] {
                    Instruction::Store { .. } => return true,
                    Instruction::Load { l, .. } => (l, false),
                    _ => (place.threads[t].location(code), true),
                }
            };
            if !(0..self.program.threads.len()).any(|u| u != t && self.wakes(place, u, l, reads)) {
                return true;
            }
        }
        false
    }

    /// Could something left to u put at l, or, where that matters, read there?
    fn wakes(&self, place: &Place, u: usize, l: u8, reads: bool) -> bool {
        let thread = &place.threads[u];
        let (read, written) = if thread.failed { (0, 0) } else { self.left.behind(u, thread.next) };
        self.queue(place, u).iter().any(|entry| entry.location == l) || (written | if reads { read } else { 0 }) >> l & 1 == 1
    }
}

/// A fetch and add or a compare and swap needs an empty queue.
fn locks(instruction: Instruction) -> bool {
    matches!(instruction, Instruction::FetchAdd { .. } | Instruction::CompareSwap { .. })
}
