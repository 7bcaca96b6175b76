//! Count and violation by states in plain Rust, unproved: what the library's calls by states are measured against. What is listed behind
//! a prefix depends on its key alone, so the numbers behind a key are worked out once and looked up afterwards in a table.
mod live;
mod sc;
mod table;
mod tso;

pub use live::Live;
pub use sc::Sc;
pub use table::Table;
pub use tso::Tso;

/// How many are listed behind a prefix, and in how many of these an assertion fails behind it; both modulo 2^64.
#[derive(Clone, Copy, Debug, Default, PartialEq, Eq)]
pub struct Numbers {
    pub listed: u64,
    pub failing: u64,
}

impl Numbers {
    /// Behind a full schedule: itself, and nothing fails any more.
    const FULL: Numbers = Numbers { listed: 1, failing: 0 };

    /// One more next step, with the numbers behind it; where the step fails an assertion, all behind it fail.
    fn add(&mut self, behind: Numbers, fails: bool) {
        self.listed = self.listed.wrapping_add(behind.listed);
        self.failing = self.failing.wrapping_add(if fails { behind.listed } else { behind.failing });
    }
}

/// A program under one of the two models: where its search stands, how it goes on, and what of that the future depends on.
pub trait Model {
    type Spot: Copy;
    type Key: AsRef<[u64]>;
    /// Before the first step, and whether an assertion has failed there.
    fn start(&self) -> (Self::Spot, bool);
    /// The bytes that may step and are not late, a bit for each; none where all have ended.
    fn on_time(&self, spot: &Self::Spot) -> Option<u32>;
    /// Behind the step of such a byte, where it is not given up, and whether an assertion failed in it.
    fn next(&self, spot: &Self::Spot, byte: usize, depth: usize) -> Option<(Self::Spot, bool)>;
    /// Whether an assertion fails behind a prefix of which one schedule is listed and known: one thread is left.
    fn run_out(&self, spot: &Self::Spot) -> Option<bool>;
    fn key(&self, spot: &Self::Spot) -> Self::Key;
    /// So many words of a key matter.
    fn width(&self) -> usize;
    /// No schedule has more steps.
    fn steps(&self) -> usize;
}

/// Where fewer steps are left no key is made: to count there is quicker.
const FEW: usize = 4;

pub struct States<M> {
    pub model: M,
    schedule: [u8; 32],
    /// No key is made where fewer steps than these are left.
    pub few: usize,
    /// A count gives up behind so many prefixes.
    most: u64,
    /// How many prefixes were met, and how many of these the table knew.
    pub met: u64,
    pub known: u64,
}

impl<M: Model> States<M> {
    pub fn new(model: M) -> States<M> {
        States { model, schedule: [0; 32], few: FEW, most: u64::MAX, met: 0, known: 0 }
    }

    /// How many are listed, and how many of these fail.
    pub fn count(&mut self, table: &mut Table) -> Numbers {
        table.open(self.model.width());
        let (start, failed) = self.model.start();
        let mut all = Numbers::default();
        all.add(self.numbers(&start, 0, table), failed);
        all
    }

    /// The same as long as so many prefixes are enough.
    pub fn count_within(&mut self, table: &mut Table, prefixes: u64) -> Option<Numbers> {
        self.most = self.met + prefixes;
        let numbers = self.count(table);
        let enough = self.met <= self.most;
        self.most = u64::MAX;
        enough.then_some(numbers)
    }

    /// The listed schedule of this number, from 0, or no more.
    pub fn kth(&mut self, table: &mut Table, number: u64) -> Option<Vec<u8>> {
        table.open(self.model.width());
        let (mut spot, mut depth, mut left) = (self.model.start().0, 0, number);
        if left >= self.numbers(&spot, 0, table).listed {
            return None;
        }
        while let Some(on_time) = self.model.on_time(&spot) {
            // more are listed behind the prefix than are left, so one of its next steps is taken
            for byte in (0..32).filter(|byte| on_time >> byte & 1 == 1) {
                let Some((next, _)) = self.model.next(&spot, byte, depth) else { continue };
                let behind = self.numbers(&next, depth + 1, table).listed;
                if left < behind {
                    self.schedule[depth] = byte as u8;
                    spot = next;
                    break;
                }
                left -= behind;
            }
            depth += 1;
        }
        Some(self.schedule[..depth].to_vec())
    }

    /// How many listed schedules are smaller than this full one, listed or not.
    pub fn rank(&mut self, table: &mut Table, schedule: &[u8]) -> u64 {
        table.open(self.model.width());
        let (mut spot, mut smaller) = (self.model.start().0, 0u64);
        for (depth, step) in schedule.iter().enumerate() {
            let Some(on_time) = self.model.on_time(&spot) else { break };
            for byte in (0..*step as usize).filter(|byte| on_time >> byte & 1 == 1) {
                if let Some((next, _)) = self.model.next(&spot, byte, depth) {
                    smaller = smaller.wrapping_add(self.numbers(&next, depth + 1, table).listed);
                }
            }
            // behind a step that is given up nothing is listed
            if on_time >> step & 1 == 0 {
                break;
            }
            let Some((next, _)) = self.model.next(&spot, *step as usize, depth) else { break };
            spot = next;
        }
        smaller
    }

    /// The first listed schedule that fails.
    pub fn violation(&mut self, table: &mut Table) -> Option<Vec<u8>> {
        table.open(self.model.width());
        let (start, failed) = self.model.start();
        let length = self.first_failing(&start, 0, failed, table)?;
        Some(self.schedule[..length].to_vec())
    }

    /// The numbers behind a prefix.
    fn numbers(&mut self, spot: &M::Spot, depth: usize, table: &mut Table) -> Numbers {
        self.met += 1;
        if self.met > self.most {
            return Numbers::default();
        }
        let Some(on_time) = self.model.on_time(spot) else { return Numbers::FULL };
        if let Some(fails) = self.model.run_out(spot) {
            return Numbers { listed: 1, failing: fails as u64 };
        }
        if self.model.steps() < depth + self.few {
            return self.numbers_behind(spot, on_time, depth, table);
        }
        let key = self.model.key(spot);
        let key = &key.as_ref()[..self.model.width()];
        if let Some(numbers) = table.look(key) {
            self.known += 1;
            return numbers;
        }
        let all = self.numbers_behind(spot, on_time, depth, table);
        table.put(key, all);
        all
    }

    /// The sums over the next steps.
    fn numbers_behind(&mut self, spot: &M::Spot, mut on_time: u32, depth: usize, table: &mut Table) -> Numbers {
        let mut all = Numbers::default();
        while on_time != 0 {
            let byte = on_time.trailing_zeros() as usize;
            on_time &= on_time - 1;
            if let Some((next, fails)) = self.model.next(spot, byte, depth) {
                all.add(self.numbers(&next, depth + 1, table), fails);
            }
        }
        all
    }

    /// The length of the first listed schedule behind a prefix in which an assertion fails or has failed. The table has the keys behind
    /// which none fails.
    fn first_failing(&mut self, spot: &M::Spot, depth: usize, failed: bool, table: &mut Table) -> Option<usize> {
        self.met += 1;
        let Some(mut on_time) = self.model.on_time(spot) else { return failed.then_some(depth) };
        if !failed && self.model.run_out(spot) == Some(false) {
            return None;
        }
        let keyed = !failed && self.model.steps() >= depth + self.few;
        let key = if keyed { Some(self.model.key(spot)) } else { None };
        let key = key.as_ref().map(|key| &key.as_ref()[..self.model.width()]);
        if key.is_some_and(|key| table.look(key).is_some()) {
            self.known += 1;
            return None;
        }
        while on_time != 0 {
            let byte = on_time.trailing_zeros() as usize;
            on_time &= on_time - 1;
            if let Some((next, fails)) = self.model.next(spot, byte, depth) {
                self.schedule[depth] = byte as u8;
                let found = self.first_failing(&next, depth + 1, failed || fails, table);
                if found.is_some() {
                    return found;
                }
            }
        }
        if let Some(key) = key {
            table.put(key, Numbers::default());
        }
        None
    }
}

/// Values put two to a word behind each other.
struct Packed<'a> {
    words: &'a mut [u64],
    count: usize,
}

impl<'a> Packed<'a> {
    /// In front of these words, which are zeros.
    fn new(words: &'a mut [u64]) -> Packed<'a> {
        Packed { words, count: 0 }
    }

    fn put(&mut self, value: u32) {
        self.words[self.count / 2] |= (value as u64) << (32 * (self.count % 2));
        self.count += 1;
    }

    /// How many words are in use.
    fn words(&self) -> usize {
        self.count.div_ceil(2)
    }
}
