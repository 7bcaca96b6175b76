//! A schedule: a list of step bytes, as the library answers it.
use crate::hex;
use std::fmt;
use std::ops::Deref;
use tarczolin_sys::tso::SCHEDULE;

/// An empty schedule for the eye.
pub const NO_STEP: &str = "(no step)";

/// At most 24 steps, under total store order 48. Two are compared as lists, first difference first.
#[derive(Clone, Copy)]
pub struct Schedule {
    steps: [u8; SCHEDULE],
    length: usize,
}

impl Default for Schedule {
    /// No step.
    fn default() -> Schedule {
        Schedule { steps: [0; SCHEDULE], length: 0 }
    }
}

impl Schedule {
    /// The bytes in front of an output.
    pub fn of_output(front: &[u8]) -> Schedule {
        let mut steps = [0; SCHEDULE];
        steps[..front.len()].copy_from_slice(front);
        Schedule { steps, length: front.len() }
    }

    /// The schedule for the eye, where an empty line would say nothing.
    pub fn told(&self) -> String {
        if self.is_empty() {
            NO_STEP.to_string()
        } else {
            self.to_string()
        }
    }

    /// One more step behind the others.
    pub fn push(&mut self, t: u8) {
        self.steps[self.length] = t;
        self.length += 1;
    }
}

impl FromIterator<u8> for Schedule {
    fn from_iter<I: IntoIterator<Item = u8>>(steps: I) -> Schedule {
        let mut schedule = Schedule::default();
        steps.into_iter().for_each(|t| schedule.push(t));
        schedule
    }
}

impl Deref for Schedule {
    type Target = [u8];

    fn deref(&self) -> &[u8] {
        &self.steps[..self.length]
    }
}

impl PartialEq for Schedule {
    fn eq(&self, other: &Schedule) -> bool {
        **self == **other
    }
}

impl Eq for Schedule {}

impl PartialOrd for Schedule {
    fn partial_cmp(&self, other: &Schedule) -> Option<std::cmp::Ordering> {
        Some(self.cmp(other))
    }
}

impl Ord for Schedule {
    fn cmp(&self, other: &Schedule) -> std::cmp::Ordering {
        (**self).cmp(&**other)
    }
}

impl fmt::Display for Schedule {
    fn fmt(&self, f: &mut fmt::Formatter) -> fmt::Result {
        f.write_str(&hex::digits(self))
    }
}

impl fmt::Debug for Schedule {
    fn fmt(&self, f: &mut fmt::Formatter) -> fmt::Result {
        write!(f, "{self}")
    }
}
