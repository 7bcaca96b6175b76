//! The list by a search in plain Rust, unproved: what the library's search is measured against. Depth first, threads
//! ascending, one copy of the place a step; a step is given up where it comes late (R1), where a smaller twin could take it
//! (R2), or where it leaves threads asleep for good (R3). What is reached in full is listed: no test is left.
mod place;
mod state;
pub mod states;
pub mod store_order;
pub mod tso;
pub mod walk;

use crate::oracle::decode::Program;
use place::{Left, Place};

/// The threads of the `02` line of each thread, as bits; none where it stands in no line.
fn alike(program: &Program) -> [u8; 6] {
    let mut alike = [0; 6];
    for group in &program.alike {
        let bits = group.iter().fold(0, |bits, t| bits | 1 << t);
        group.iter().for_each(|&t| alike[t as usize] = bits);
    }
    alike
}

/// A search over one program, with the prefix that it stands at.
pub struct Search<'a> {
    program: &'a Program,
    left: Left,
    alike: [u8; 6],
    schedule: [u8; 24],
    /// Prefixes visited, those of them that go on to no full schedule by their next step, and full schedules reached.
    pub prefixes: u64,
    pub dead_ends: u64,
    pub reached: u64,
}

impl<'a> Search<'a> {
    pub fn new(program: &'a Program) -> Search<'a> {
        Search {
            program,
            left: Left::of(program),
            alike: alike(program),
            schedule: [0; 24],
            prefixes: 0,
            dead_ends: 0,
            reached: 0,
        }
    }

    /// Hands the listed schedules after the bound, ascending, each with whether it fails, to `each`, until that says stop.
    pub fn list(&mut self, bound: Option<&[u8]>, each: &mut impl FnMut(&[u8], bool) -> bool) -> bool {
        self.visit(&Place::new(self.program), 0, bound, each)
    }

    /// The least listed schedule after the bound.
    pub fn next(&mut self, bound: Option<&[u8]>) -> Option<Vec<u8>> {
        let mut found = None;
        self.list(bound, &mut |schedule, _| {
            found = Some(schedule.to_vec());
            true
        });
        found
    }

    /// How many are listed, and how many of these fail.
    pub fn count(&mut self) -> (u64, u64) {
        let mut counts = (0, 0);
        self.list(None, &mut |_, fails| {
            counts.0 += 1;
            counts.1 += fails as u64;
            false
        });
        counts
    }

    /// How many are listed, and how many of these fail, by one place in which each step is made and taken back.
    pub fn count_in_place(&mut self) -> (u64, u64) {
        let mut place = Place::new(self.program);
        self.visit_in_place(&mut place, 0)
    }

    fn visit_in_place(&mut self, place: &mut Place, depth: usize) -> (u64, u64) {
        if place.running == 0 {
            return (1, place.fails() as u64);
        }
        let mut counts = (0, 0);
        let mut on_time = place.running & !place.late;
        while on_time != 0 {
            let t = on_time.trailing_zeros() as usize;
            on_time &= on_time - 1;
            if self.has_smaller_twin(place, t) {
                continue;
            }
            let before = place.advance(self.program, t, depth as u8 + 1);
            if place.late == 0 || !self.left.some_asleep(self.program, place) {
                self.schedule[depth] = t as u8;
                let (listed, failing) = self.visit_in_place(place, depth + 1);
                counts = (counts.0 + listed, counts.1 + failing);
            }
            place.take_back(t, before);
        }
        counts
    }

    /// Visits a prefix; the bound is given where the prefix is the bound's own beginning.
    fn visit<F: FnMut(&[u8], bool) -> bool>(&mut self, place: &Place, depth: usize, bound: Option<&[u8]>, each: &mut F) -> bool {
        self.prefixes += 1;
        if place.running == 0 {
            self.reached += 1;
            return bound.is_none() && each(&self.schedule[..depth], place.fails());
        }
        let first = bound.map_or(0, |bound| bound[depth]);
        let mut on_time = place.running & !place.late & !((1 << first) - 1);
        let mut dead = true;
        while on_time != 0 {
            let t = on_time.trailing_zeros() as usize;
            on_time &= on_time - 1;
            if self.has_smaller_twin(place, t) {
                continue;
            }
            let next = place.step(self.program, t, depth as u8 + 1);
            if next.late != 0 && self.left.some_asleep(self.program, &next) {
                continue;
            }
            dead = false;
            self.schedule[depth] = t as u8;
            if self.visit(&next, depth + 1, bound.filter(|_| t as u8 == first), each) {
                return true;
            }
        }
        self.dead_ends += dead as u64;
        false
    }

    fn has_smaller_twin(&self, place: &Place, t: usize) -> bool {
        let mut smaller = self.alike[t] & ((1 << t) - 1);
        while smaller != 0 {
            let u = smaller.trailing_zeros() as usize;
            smaller &= smaller - 1;
            if place.twins(u, t) {
                return true;
            }
        }
        false
    }
}
