//! Members of a list by their places, which count from 1, and places of schedules. Under sequential consistency each is a call of the
//! library, which counts what stands in front by states; under total store order there is no such call.
use crate::ask::{self, Counts, Listed, Refusal, Rows};
use crate::memory::Memory;
use crate::model::Model;
use crate::program::Program;
use crate::schedule::Schedule;

/// A list under sequential consistency, and memory in which its calls remember states.
pub struct Members {
    file: Vec<u8>,
    scratch: Vec<u64>,
}

/// Where a full schedule stands: behind so many listed ones, and whether it is listed itself.
#[derive(Clone, Copy, Debug, PartialEq, Eq)]
pub struct Standing {
    pub smaller: u64,
    pub listed: bool,
}

impl Members {
    /// The list of an accepted file.
    pub fn of(file: &[u8], program: &Program, memory: Memory) -> Members {
        assert!(program.model == Model::Sc, "no call finds a place of a list under total store order");
        Members { file: file.to_vec(), scratch: memory.lent(Model::Sc, program) }
    }

    /// How many there are, and how many of these fail.
    pub fn counts(&mut self) -> Counts {
        ask::count(Model::Sc, &self.file, &mut self.scratch).expect("the file is accepted")
    }

    /// The member at a place; none where the list has not so many, and at place 0.
    pub fn schedule_at(&mut self, place: u64) -> Option<Schedule> {
        ask::kth(&self.file, place.checked_sub(1)?, &mut self.scratch).expect("the file is accepted")
    }

    /// The same, and whether it fails. A full schedule is the only one that begins as it does without its last step, so the first that is
    /// listed behind that beginning is the member itself.
    pub fn at(&mut self, place: u64) -> Option<Listed> {
        let schedule = self.schedule_at(place)?;
        let mut row = Rows::new(Model::Sc, 1);
        let front = schedule.split_last().map(|(_, front)| front);
        row.fill(&self.file, front).expect("the file is accepted");
        let listed = row.listed().next().expect("a member is listed behind its front");
        assert_eq!(listed.schedule, schedule, "the row of a member is the member's own");
        Some(listed)
    }

    /// Where a full schedule stands; what is none is refused.
    pub fn standing(&mut self, schedule: &[u8]) -> Result<Standing, Refusal> {
        let smaller = ask::rank(&self.file, schedule, &mut self.scratch)?;
        let listed = self.schedule_at(smaller + 1).is_some_and(|member| *member == *schedule);
        Ok(Standing { smaller, listed })
    }

    /// How many members lie behind one bound up to another, as far as these are full; none where one is not.
    pub fn between(&mut self, after: Option<&Schedule>, until: Option<&Schedule>) -> Option<u64> {
        let end = match until {
            None => self.counts().listed,
            Some(until) => self.standing(until).ok()?.up_to(),
        };
        let front = match after {
            None => 0,
            Some(after) => self.standing(after).ok()?.up_to(),
        };
        Some(end.saturating_sub(front))
    }
}

impl Standing {
    /// How many are listed up to the schedule, with it.
    fn up_to(self) -> u64 {
        self.smaller + self.listed as u64
    }
}
