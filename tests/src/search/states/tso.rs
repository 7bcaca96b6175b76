//! The key under total store order: of each thread how many instructions are left, its live registers and its pending stores by location and
//! value; memory; the bytes that would come late, the moves that would come far, and who is near whom: which thread of a `02` line would
//! become another's twin by its next accesses, from memory and its queue as they are.
use super::live::Live;
use super::{Model, Packed};
use crate::oracle::decode::{Instruction, Program};
use crate::search::store_order::{Place, Search, FOUND, LONE};

/// The way of an access that did not read memory.
const NOT_MEMORY: u64 = 8;

/// Where the search stands, and of each thread the location of each access that read memory, four bits each, the latest lowest.
#[derive(Clone, Copy)]
pub struct Spot {
    place: Place,
    ways: [u64; 6],
}

pub struct Tso<'a> {
    program: &'a Program,
    search: Search<'a>,
    live: Live,
    width: usize,
    steps: usize,
}

impl<'a> Tso<'a> {
    /// Of a program with at most 16 accesses.
    pub fn new(program: &'a Program) -> Tso<'a> {
        let live = Live::of(program);
        let stores = program.threads.iter().flatten().filter(|i| matches!(i, Instruction::Store { .. })).count();
        let accesses = program.threads.iter().flatten().filter(|instruction| instruction.is_access()).count();
        let width = 2 + (8 + live.most()).div_ceil(2) + stores;
        Tso { program, search: Search::new(program), live, width, steps: accesses + stores }
    }

    /// The threads that a thread is near.
    fn near(&self, spot: &Spot, t: usize) -> u8 {
        let mut others = self.search.alike[t] & !(1 << t);
        let mut near = 0;
        while others != 0 {
            let u = others.trailing_zeros() as usize;
            others &= others - 1;
            near |= (is_near(spot, t, u) as u8) << u;
        }
        near
    }
}

/// Nothing of these threads of one `02` line is in memory, t's accesses are a beginning of u's, and what u read in memory beyond them is still
/// the last write there.
fn is_near(spot: &Spot, t: usize, u: usize) -> bool {
    let (words, stamps) = (&spot.place.words, &spot.place.stamps);
    let (mut word, mut way) = (words[u], spot.ways[u]);
    if words[t] >= LONE || word >= LONE {
        return false;
    }
    while word != words[t] {
        let read = way % 16 != NOT_MEMORY;
        if word == 0 || (read && FOUND + stamps[way as usize % 16] as u64 != word % 64) {
            return false;
        }
        (word, way) = (word / 64, way / 16);
    }
    true
}

impl Model for Tso<'_> {
    type Spot = Spot;
    /// The sets, the lengths, at most 24 registers and eight values, and at most 16 pending stores.
    type Key = [u64; 34];

    fn start(&self) -> (Spot, bool) {
        let place = self.search.start();
        (Spot { place, ways: [0; 6] }, place.threads.iter().any(|thread| thread.failed))
    }

    fn on_time(&self, spot: &Spot) -> Option<u32> {
        let place = &spot.place;
        (place.enabled != 0).then_some(place.enabled & !place.late & !((place.far as u32) << 16))
    }

    fn next(&self, spot: &Spot, byte: usize, depth: usize) -> Option<(Spot, bool)> {
        let twins = self.search.smaller_twins(&spot.place);
        let t = byte % 16;
        if twins[t] != 0xff {
            return None;
        }
        let (place, step) = self.search.behind(&spot.place, byte, depth as u8 + 1, &twins);
        if place.late != 0 && self.search.some_asleep(&place) {
            return None;
        }
        let mut next = Spot { place, ways: spot.ways };
        if byte < 16 {
            next.ways[t] = next.ways[t] << 4 | if step.looks { step.location as u64 } else { NOT_MEMORY };
        }
        Some((next, byte < 16 && place.threads[t].failed))
    }

    fn key(&self, spot: &Spot) -> [u64; 34] {
        let place = &spot.place;
        let mut key = [0; 34];
        key[0] = 1 | ((place.late & 63) as u64) << 1 | ((place.late >> 16) as u64) << 7 | (place.far as u64) << 13;
        let mut values = Packed::new(&mut key[2..]);
        for (t, _) in self.program.threads.iter().enumerate().filter(|(t, code)| !place.threads[*t].ended(code)) {
            self.live.put(&mut values, t, &place.threads[t]);
        }
        place.memory.iter().for_each(|value| values.put(*value));
        let mut at = 2 + values.words();
        for (t, code) in self.program.threads.iter().enumerate() {
            let queue = self.search.queue(place, t);
            key[0] |= (self.near(spot, t) as u64) << (6 * t + 19);
            key[1] |= (queue.len() as u64) << (5 * t) | (place.threads[t].left(code) as u64) << (5 * t + 30);
            for pending in queue {
                key[at] = (pending.value as u64) << 3 | pending.location as u64;
                at += 1;
            }
        }
        key
    }

    /// A thread that is left may have its accesses and its moves in several orders.
    fn run_out(&self, _: &Spot) -> Option<bool> {
        None
    }

    fn width(&self) -> usize {
        self.width
    }

    fn steps(&self) -> usize {
        self.steps
    }
}
