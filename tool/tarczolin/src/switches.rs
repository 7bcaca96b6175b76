//! Changes of thread in a schedule, and the failing one of a list that has the fewest. Plain Rust over the list's rows, which is not proved.
use crate::jobs::{self, List};
use crate::model::thread;
use crate::schedule::Schedule;
use std::io;

/// How often a step is another thread's than the one before it.
pub fn switches(schedule: &Schedule) -> usize {
    schedule.windows(2).filter(|pair| thread(pair[0]) != thread(pair[1])).count()
}

/// Of the failing ones of a list that was looked at up to a limit.
#[derive(Default)]
pub struct Fewest {
    pub best: Option<Schedule>,
    pub failing: u64,
    pub walked: u64,
    /// More are listed than were looked at, or Ctrl-C came.
    pub open: bool,
}

/// The first of those that fail with the fewest changes of thread.
pub fn fewest(list: &List, jobs: usize, limit: u64) -> Fewest {
    let mut found = Fewest::default();
    let _ = jobs::parts(list, jobs, |part| {
        found.open |= part.cut;
        for listed in &part.listed {
            if found.walked == limit {
                found.open = true;
                return Err(io::Error::other("behind the limit"));
            }
            found.walked += 1;
            found.failing += listed.fails as u64;
            let less = |best: &Schedule| switches(&listed.schedule) < switches(best);
            if listed.fails && found.best.as_ref().is_none_or(less) {
                found.best = Some(listed.schedule);
            }
        }
        Ok(())
    });
    found
}

#[cfg(test)]
mod tests {
    use super::*;

    #[test]
    fn changes_of_thread() {
        let count = |steps: &[u8]| switches(&steps.iter().copied().collect());
        assert_eq!([count(&[]), count(&[1]), count(&[0, 0, 1, 1, 0]), count(&[0, 0x10, 1, 0x11])], [0, 0, 2, 1]);
    }
}
