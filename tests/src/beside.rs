//! The library's list of a program beside plain Rust's, both as rows of bytes, with the best times of each, measured in turns.
use crate::calls::{self, Answer, ROW};
use crate::files::lines;
use crate::oracle::decode::decode;
use crate::search::walk::{walk, Walked};
use crate::search::Search;
use std::hint::black_box;
use std::time::Instant;

/// How many rows a call is given room for.
const ROOM: usize = 1024;

/// Threads that load location 0, add 1 and store it, so many times each, with so many further register instructions.
pub fn increments(threads: usize, times: usize, further: usize, alike: bool) -> Vec<u8> {
    let thread = format!("01 {}{}", "110000 21000000000001 10000100000000 ".repeat(times), "21010000000001 ".repeat(further));
    let group: String = (0..threads).map(|t| format!("{t:02x}")).collect();
    lines(&format!("{} {}", thread.repeat(threads), if alike { format!("02{group}") } else { String::new() }))
}

/// The library's whole list by rows, 1,024 at a time.
pub fn by_rows(file: &[u8]) -> Vec<u8> {
    let mut list = Vec::new();
    let mut out = vec![0; ROOM * ROW];
    let mut answer = calls::rows(file, &mut out);
    while let Answer::Answered(rows) = answer {
        list.extend(&out[..rows as usize * ROW]);
        if rows < ROOM as u64 {
            return list;
        }
        let last: [u8; ROW] = list[list.len() - ROW..].try_into().expect("a row's length");
        answer = calls::rows_after(file, &last[2..2 + last[0] as usize], &mut out);
    }
    panic!("{answer:?}")
}

/// The library's list by start and continue, each of which decodes the file anew: the schedules, each behind its length.
pub fn by_calls(file: &[u8]) -> Vec<u8> {
    let mut list = Vec::new();
    let mut out = [0; 24];
    let mut answer = calls::start(file, &mut out);
    while let Answer::Answered(length) = answer {
        let last = out;
        list.push(length as u8);
        list.extend(&last[..length as usize]);
        answer = calls::continue_from(file, &last[..length as usize], &mut out);
    }
    assert_eq!(answer, Answer::None);
    list
}

/// The same schedules out of rows.
pub fn schedules(rows: &[u8]) -> Vec<u8> {
    rows.chunks_exact(ROW).flat_map(|row| [&row[..1], &row[2..2 + row[0] as usize]].concat()).collect()
}

/// Plain Rust's list by a search with the library's rules.
pub fn by_search(file: &[u8]) -> Vec<u8> {
    let mut rows = Vec::new();
    Search::new(&decode(file).unwrap()).list(None, &mut |schedule, fails| {
        rows.extend([schedule.len() as u8, fails as u8]);
        rows.extend(schedule);
        rows.resize(rows.len().next_multiple_of(ROW), 0);
        false
    });
    rows
}

/// Plain Rust's start and continue: the file decoded and the search begun anew for each schedule.
pub fn by_searches(file: &[u8]) -> Vec<u8> {
    let mut list = Vec::new();
    let mut last: Option<Vec<u8>> = None;
    while let Some(next) = Search::new(&decode(file).unwrap()).next(last.as_deref()) {
        list.push(next.len() as u8);
        list.extend(&next);
        last = Some(next);
    }
    list
}

/// What a run gave, and the least time of so many runs, in nanoseconds.
pub struct Timed<T> {
    pub given: T,
    pub nanoseconds: f64,
}

/// A first run.
pub fn timed<T>(mut run: impl FnMut() -> T) -> Timed<T> {
    let began = Instant::now();
    let given = black_box(run());
    Timed { given, nanoseconds: began.elapsed().as_nanos() as f64 }
}

impl<T> Timed<T> {
    /// One more.
    pub fn again(&mut self, run: impl FnMut() -> T) {
        self.nanoseconds = self.nanoseconds.min(timed(run).nanoseconds);
    }
}

/// The library's list of a program and plain Rust's by a walk over every full schedule.
pub struct Beside {
    pub walk: Timed<Walked>,
    pub rows: Timed<Vec<u8>>,
    pub calls: Timed<Vec<u8>>,
}

impl Beside {
    /// So many walks, and in between ten times as many lists by the library.
    pub fn of(file: &[u8], rounds: usize) -> Beside {
        let walked = || walk(&decode(black_box(file)).unwrap());
        let (rows, calls) = (|| by_rows(black_box(file)), || by_calls(black_box(file)));
        let mut both = Beside { walk: timed(walked), rows: timed(rows), calls: timed(calls) };
        for round in 0..10 * rounds {
            both.rows.again(rows);
            both.calls.again(calls);
            if round % 10 == 9 && round > 9 {
                both.walk.again(walked);
            }
        }
        both
    }

    /// Whether the lists are the same, byte for byte.
    pub fn same(&self) -> bool {
        self.rows.given == self.walk.given.rows && self.calls.given == schedules(&self.walk.given.rows)
    }

    /// How many times as long the walk takes as the library's list by rows.
    pub fn ratio(&self) -> f64 {
        self.walk.nanoseconds / self.rows.nanoseconds
    }

    /// Why this is wrong: the lists differ, or the library is slower.
    pub fn wrong(&self) -> Option<&'static str> {
        if !self.same() {
            return Some("the lists differ");
        }
        (self.ratio() < 1.0).then_some("the library is slower")
    }
}
