//! Full schedules that cut the range of all schedules into pieces.
use crate::machine::Machine;
use crate::program::Program;
use crate::schedule::Schedule;
use std::collections::BTreeSet;

/// A beginning of a schedule, and the machine behind it.
#[derive(Clone)]
struct Begun<'a> {
    schedule: Schedule,
    machine: Machine<'a>,
}

impl Begun<'_> {
    fn step(&self, t: u8) -> Self {
        let mut next = self.clone();
        next.machine.step(t);
        next.schedule.push(t);
        next
    }

    /// The greatest full schedule that begins like this: always the greatest byte that may step.
    fn greatest(mut self) -> Schedule {
        loop {
            let last = self.machine.going().next_back();
            match last {
                Some(t) => self = self.step(t),
                None => return self.schedule,
            }
        }
    }
}

/// Ascending full schedules, about so many: the greatest ones of all beginnings of one length. Every full schedule is at
/// most the last.
pub fn bounds(program: &Program, pieces: usize) -> Vec<Schedule> {
    let mut begun = vec![Begun { schedule: Schedule::default(), machine: Machine::new(program) }];
    while begun.len() < pieces && begun.iter().any(|b| b.machine.going().next().is_some()) {
        begun = begun.iter().flat_map(longer).collect();
    }
    begun.into_iter().map(Begun::greatest).collect()
}

/// So many ascending full schedules, or all there are: cuts of the range in pieces. Every full schedule is at most the last.
pub fn cuts(program: &Program, pieces: usize) -> Vec<Schedule> {
    let bounds = bounds(program, pieces);
    let last = |piece: usize| (piece + 1) * bounds.len() / pieces;
    (0..pieces).map(last).filter(|end| *end > 0).map(|end| bounds[end - 1]).collect::<BTreeSet<_>>().into_iter().collect()
}

/// The beginnings that are one step longer, ascending; a full schedule stays as it is.
fn longer<'a>(begun: &Begun<'a>) -> Vec<Begun<'a>> {
    let steps: Vec<_> = begun.machine.going().map(|t| begun.step(t)).collect();
    if steps.is_empty() {
        vec![begun.clone()]
    } else {
        steps
    }
}
