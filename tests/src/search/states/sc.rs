//! The key under sequential consistency: of each thread how many instructions are left and its live registers, memory, the late set, and
//! who is near whom: which thread of a `02` line would come to have another's reads by reading memory as it is and writing nothing.
use super::live::Live;
use super::{Model, Packed};
use crate::oracle::decode::Program;
use crate::search::alike;
use crate::search::place::{Left, Place, LONE};

/// Where the search stands, and of each thread the locations of its accesses, three bits each, the latest lowest.
#[derive(Clone, Copy)]
pub struct Spot {
    place: Place,
    ways: [u64; 6],
}

pub struct Sc<'a> {
    program: &'a Program,
    left: Left,
    live: Live,
    alike: [u8; 6],
    /// The threads of `02` lines.
    in_lines: u8,
    width: usize,
    steps: usize,
}

impl<'a> Sc<'a> {
    pub fn new(program: &'a Program) -> Sc<'a> {
        let live = Live::of(program);
        let width = 2 + (8 + live.most()).div_ceil(2);
        let alike = alike(program);
        let in_lines = alike.iter().fold(0, |all, line| all | line);
        let steps = program.threads.iter().flatten().filter(|instruction| instruction.is_access()).count();
        Sc { program, left: Left::of(program), live, alike, in_lines, width, steps }
    }

    /// The threads that a thread is near.
    fn near(&self, spot: &Spot, t: usize) -> u8 {
        let mut others = self.alike[t] & !(1 << t);
        let mut near = 0;
        while others != 0 {
            let u = others.trailing_zeros() as usize;
            others &= others - 1;
            near |= (is_near(spot, t, u) as u8) << u;
        }
        near
    }
}

/// Neither of these threads of one `02` line has written, t's reads are a beginning of u's, and what u read beyond them is still the last
/// write there.
fn is_near(spot: &Spot, t: usize, u: usize) -> bool {
    let (words, stamps) = (&spot.place.words, &spot.place.stamps);
    let (mut word, mut way) = (words[u], spot.ways[u]);
    if words[t] >= LONE || word >= LONE {
        return false;
    }
    while word != words[t] {
        if stamps[way as usize % 8] as u64 + 1 != word % 32 {
            return false;
        }
        (word, way) = (word / 32, way / 8);
    }
    true
}

impl Model for Sc<'_> {
    type Spot = Spot;
    /// The late set and what is left, who is near whom, at most 24 registers and eight values.
    type Key = [u64; 18];

    fn start(&self) -> (Spot, bool) {
        let place = Place::new(self.program);
        (Spot { place, ways: [0; 6] }, place.fails())
    }

    fn on_time(&self, spot: &Spot) -> Option<u32> {
        (spot.place.running != 0).then_some((spot.place.running & !spot.place.late) as u32)
    }

    fn next(&self, spot: &Spot, t: usize, depth: usize) -> Option<(Spot, bool)> {
        let mut smaller = self.alike[t] & ((1 << t) - 1);
        while smaller != 0 {
            let u = smaller.trailing_zeros() as usize;
            smaller &= smaller - 1;
            if spot.place.twins(u, t) {
                return None;
            }
        }
        let location = spot.place.access(self.program, t).location;
        let mut next = Spot { place: spot.place.step(self.program, t, depth as u8 + 1), ways: spot.ways };
        if next.place.late != 0 && self.left.some_asleep(self.program, &next.place) {
            return None;
        }
        next.ways[t] = next.ways[t] << 3 | location as u64;
        Some((next, next.place.threads[t].failed))
    }

    fn key(&self, spot: &Spot) -> [u64; 18] {
        let mut key = [0; 18];
        let place = &spot.place;
        let (mut left, mut near) = (0, 0);
        let mut values = Packed::new(&mut key[2..]);
        let mut running = place.running;
        while running != 0 {
            let t = running.trailing_zeros() as usize;
            running &= running - 1;
            left |= ((self.program.threads[t].len() - place.threads[t].next) as u64) << (6 * t);
            self.live.put(&mut values, t, &place.threads[t]);
        }
        place.memory.iter().for_each(|value| values.put(*value));
        let mut alike = self.in_lines;
        while alike != 0 {
            let t = alike.trailing_zeros() as usize;
            alike &= alike - 1;
            near |= (self.near(spot, t) as u64) << (6 * t);
        }
        (key[0], key[1]) = (1 << 63 | left << 6 | place.late as u64, near);
        key
    }

    fn run_out(&self, spot: &Spot) -> Option<bool> {
        let place = &spot.place;
        if !place.running.is_power_of_two() {
            return None;
        }
        let t = place.running.trailing_zeros() as usize;
        let (mut thread, mut memory, code) = (place.threads[t], place.memory, &self.program.threads[t]);
        while !thread.ended(code) {
            let l = thread.location(code) as usize;
            memory[l] = thread.access(code, memory[l]).written.unwrap_or(memory[l]);
        }
        Some(thread.failed)
    }

    fn width(&self) -> usize {
        self.width
    }

    fn steps(&self) -> usize {
        self.steps
    }
}
