//! Which executions come onto a page: the failing ones first, then the others, both in the order of the list.
use crate::ask::{Counts, Listed};

/// A page holds at most so many executions.
pub const MOST: usize = 500;

/// Executions chosen for a page, with their positions in the list: as many as it may hold of each kind, and how many there were.
#[derive(Default)]
pub struct Pick {
    failing: Vec<(u64, Listed)>,
    others: Vec<(u64, Listed)>,
    chosen: Counts,
}

/// How many were chosen and have no place on a page.
#[derive(Clone, Copy, Debug, Default, PartialEq, Eq)]
pub struct LeftOut {
    pub listed: u64,
    /// How many of these fail, where that is known: not all of a long list were looked at.
    pub failing: Option<u64>,
    /// So many were looked at where these are not all.
    pub looked_at: Option<u64>,
}

impl Pick {
    pub fn add(&mut self, position: u64, listed: &Listed) {
        self.chosen.add(listed.fails);
        let kept = if listed.fails { &mut self.failing } else { &mut self.others };
        if kept.len() < MOST {
            kept.push((position, *listed));
        }
    }

    /// How many were chosen so far, and how many of these fail.
    pub fn chosen(&self) -> Counts {
        self.chosen
    }

    /// Has the page no place any more for another one, where so many failing ones may still come?
    pub fn is_full(&self, failing_to_come: u64) -> bool {
        self.failing.len() >= MOST || (failing_to_come == 0 && self.failing.len() + self.others.len() >= MOST)
    }

    /// How many of them have a place, and how many of these fail.
    pub fn shown(&self) -> Counts {
        let failing = self.failing.len();
        Counts { listed: (failing + self.others.len()).min(MOST) as u64, failing: failing as u64 }
    }

    /// How many were chosen and have no place, and how many of these fail.
    pub fn left_out(&self) -> LeftOut {
        let Counts { listed, failing } = self.chosen;
        let failing = Some(failing.saturating_sub(MOST as u64));
        LeftOut { listed: listed.saturating_sub(MOST as u64), failing, looked_at: None }
    }

    /// Those that have a place, in the order of the page.
    pub fn picked(self) -> Vec<(u64, Listed)> {
        self.failing.into_iter().chain(self.others).take(MOST).collect()
    }
}
