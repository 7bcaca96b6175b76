//! A walk over the executions that show was asked for. Totals are those of the whole list: under sequential consistency one call counts
//! them where the walk does not begin at the list's beginning or need not come to its end; else the walk does.
use super::pick::{self, SHORT};
use super::places::{Places, WALKS};
use crate::ask::{self, Counts, Listed};
use crate::error::Error;
use crate::html::{LeftOut, Pick};
use crate::jobs::{Done, List};
use crate::members::Members;
use crate::memory::Memory;
use crate::model::Model;
use crate::output;
use crate::progress::{waiting, Progress};
use crate::schedule::Schedule;
use std::io;

/// Which of the listed executions: those at these places, and only the failing ones if these are wanted.
#[derive(Clone, Copy)]
pub struct Choice {
    pub places: Places,
    pub failing_only: bool,
    pub memory: Memory,
}

pub struct Walk<'a> {
    pub list: &'a List<'a>,
    choice: Choice,
    /// The counts of the whole list, where a call has told them.
    all: Option<Counts>,
    /// The walk begins behind so many places and behind this member, where that is not the list's beginning.
    front: u64,
    behind: Option<Schedule>,
}

/// What was counted, of the whole list or until Ctrl-C; the last place that was come to; whether all was written, and whether Ctrl-C cut
/// the walk short.
pub struct Walked {
    pub counts: Counts,
    pub place: u64,
    pub written: io::Result<()>,
    pub cut: bool,
}

impl<'a> Walk<'a> {
    /// The walk for columns, which come one after the other, or for a page, for which all is known before it is written.
    pub fn of(list: &'a List<'a>, choice: Choice, page: bool) -> Result<Walk<'a>, Error> {
        let places = choice.places;
        let from_beginning = Walk { list, choice, all: None, front: 0, behind: None };
        if places.are_all() && !page {
            return Ok(from_beginning);
        }
        if list.program.model == Model::Tso {
            if !places.are_all() {
                output::tell(WALKS);
            }
            return Ok(from_beginning);
        }
        let (all, front) = (pick::counts(list, choice.memory)?, places.from - 1);
        let mut members = Members::of(list.file, list.program, choice.memory);
        // behind the last place nothing is walked, and no member is asked for
        let behind = if front < all.listed { waiting(|| members.schedule_at(front)) } else { None };
        Ok(Walk { all: Some(all), front, behind, ..from_beginning })
    }

    /// Hands each chosen execution with its place to `each`, until that fails or Ctrl-C.
    pub fn walk(&self, each: &mut dyn FnMut(u64, &Listed) -> io::Result<()>) -> Walked {
        tarczolin_sys::note_interrupts();
        let Choice { places, failing_only, memory } = self.choice;
        let mut walked = Walked { counts: Counts::default(), place: self.front, written: Ok(()), cut: false };
        let size = self.all.map(|all| places.of_so_many(all.listed));
        // where only failing ones are wanted and their number is known, nothing is looked for behind the last of them
        let failing = self.failing().filter(|_| failing_only);
        if size == Some(0) || failing == Some(0) {
            return Walked { counts: self.all.unwrap_or_default(), ..walked };
        }
        let (mut progress, mut done) =
            (Progress::default(), size.map_or_else(|| Done::counted(self.list, memory), |size| Done::of_size(self.list, size)));
        self.list.walk(self.behind, |listed| {
            walked.cut = tarczolin_sys::was_interrupted();
            if walked.cut || (size.is_some() && places.are_before(walked.place + 1)) {
                return true;
            }
            walked.place += 1;
            walked.counts.add(listed.fails);
            if places.have(walked.place) && (listed.fails || !failing_only) {
                progress.give_way();
                walked.written = each(walked.place, listed);
            }
            progress.tell(walked.counts, || Some(done.share(walked.counts.listed, &listed.schedule)));
            walked.written.is_err() || failing == Some(walked.counts.failing)
        });
        progress.hide();
        let all = self.all.filter(|_| !walked.cut);
        Walked { counts: all.unwrap_or(walked.counts), ..walked }
    }

    /// How many at the chosen places fail, where that is known before they are walked.
    fn failing(&self) -> Option<u64> {
        self.all.map(|all| all.failing).filter(|failing| *failing == 0 || self.choice.places.are_all())
    }

    /// Is enough of a long list looked at for a page? Where all failing ones are found, or as many as it holds, nothing more can come onto
    /// it; else so many are looked at as a short list has.
    pub fn is_enough(&self, pick: &Pick) -> bool {
        let Some(all) = self.all else { return false };
        let (known, chosen) = (self.failing(), pick.chosen());
        let full = pick.is_full(known.map_or(1, |failing| failing - chosen.failing));
        match self.choice.failing_only {
            true => known.is_some() && full,
            false => self.choice.places.of_so_many(all.listed) > SHORT && (full || chosen.listed >= SHORT),
        }
    }

    /// What a page leaves out for which not all was looked at. Where it would hold none that fails, the first of the list that does is put
    /// onto it if it is among the chosen.
    pub fn left_out(&self, pick: &mut Pick) -> LeftOut {
        let (known, looked_at) = (self.failing(), pick.chosen());
        if looked_at.failing == 0 && known != Some(0) {
            if let Some((place, listed)) = self.first_failing().filter(|(place, _)| self.choice.places.have(*place)) {
                pick.add(place, &listed);
            }
        }
        let shown = pick.shown();
        let failing = known.map(|failing| failing - shown.failing);
        let all = self.all.map_or(0, |all| self.choice.places.of_so_many(all.listed));
        match self.choice.failing_only {
            true => LeftOut { listed: failing.unwrap_or(0), failing, looked_at: None },
            false => {
                let part = (known != Some(looked_at.failing)).then_some(looked_at.listed);
                LeftOut { listed: all - shown.listed, failing, looked_at: part }
            }
        }
    }

    /// The first of the whole list that fails, with its place.
    fn first_failing(&self) -> Option<(u64, Listed)> {
        let (file, program, memory) = (self.list.file, self.list.program, self.choice.memory);
        let found =
            waiting(|| ask::violation(Model::Sc, file, &mut memory.lent(Model::Sc, program))).expect("the file is accepted");
        let mut members = Members::of(file, program, memory);
        found.map(|schedule| {
            let standing = waiting(|| members.standing(&schedule)).expect("a listed schedule is full");
            (standing.smaller + 1, Listed { schedule, fails: true })
        })
    }
}
