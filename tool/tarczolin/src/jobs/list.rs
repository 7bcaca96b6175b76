//! A program whose list is walked, and parts of it.
use crate::accepted::Accepted;
use crate::ask::{Counts, Listed, Rows};
use crate::program::Program;
use crate::schedule::Schedule;
use std::time::{Duration, Instant};

/// So many schedules are asked for at first, and at most so many at a time; of so many a part is handed on.
const FEW: usize = 16;
const MANY: usize = 1024;
/// A part that is so old is handed on, however small it is.
const OLD: Duration = Duration::from_millis(200);

/// Listed schedules, in order: so many, the first that fails, the last of all, and those to be printed.
pub struct Part {
    pub counts: Counts,
    pub first_failing: Option<Schedule>,
    pub last: Option<Schedule>,
    pub listed: Vec<Listed>,
    /// The walk was interrupted behind it.
    pub cut: bool,
    began: Instant,
}

/// A program whose list is walked, or a piece of it.
pub struct List<'a> {
    pub file: &'a [u8],
    pub program: &'a Program,
    /// Whether the schedules themselves are wanted, or only counts.
    pub schedules: bool,
    /// Behind this schedule, where there is one, and up to this one.
    pub after: Option<Schedule>,
    pub until: Option<Schedule>,
}

impl Default for Part {
    fn default() -> Part {
        let counts = Counts::default();
        Part { counts, first_failing: None, last: None, listed: Vec::new(), cut: false, began: Instant::now() }
    }
}

impl Part {
    /// Is it time to hand it on?
    pub fn is_large(&self) -> bool {
        self.counts.listed >= MANY as u64 || (self.counts.listed.is_multiple_of(16) && self.began.elapsed() > OLD)
    }

    pub fn add(&mut self, list: &List, listed: &Listed) {
        self.counts.add(listed.fails);
        self.last = Some(listed.schedule);
        if listed.fails && self.first_failing.is_none() {
            self.first_failing = Some(listed.schedule);
        }
        if list.schedules {
            self.listed.push(*listed);
        }
    }
}

impl<'a> List<'a> {
    /// The whole list of a program, under the model that it is accepted under.
    pub fn of(source: &'a Accepted, schedules: bool) -> List<'a> {
        List { file: &source.file, program: &source.program, schedules, after: None, until: None }
    }

    /// No piece of it: nothing lies behind the schedule of no step up to that schedule.
    pub fn none(self) -> List<'a> {
        List { after: Some(Schedule::default()), until: Some(Schedule::default()), ..self }
    }

    /// Is this schedule behind the piece?
    pub fn is_past(&self, schedule: &Schedule) -> bool {
        self.until.is_some_and(|until| *schedule > until)
    }

    /// Hands each listed schedule behind one schedule, or from the beginning, to `each` until that says stop.
    /// Says the schedule at which it was stopped.
    pub fn walk(&self, behind: Option<Schedule>, mut each: impl FnMut(&Listed) -> bool) -> Option<Schedule> {
        let mut last = behind;
        let mut rows = Rows::new(self.program.model, FEW);
        loop {
            let more = rows.fill(self.file, last.as_deref()).expect("the file is accepted");
            if let Some(stopped) = rows.listed().find(&mut each) {
                return Some(stopped.schedule);
            }
            if !more {
                return None;
            }
            last = rows.listed().next_back().map(|listed| listed.schedule);
            rows = Rows::new(self.program.model, MANY.min(2 * rows.room()));
        }
    }
}
