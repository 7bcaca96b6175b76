//! Places of a list, which count from 1: what `--from` and `--to` ask for.
use super::arguments::Arguments;
use super::opt::Opt;
use crate::ask::Counts;
use crate::error::Error;
use crate::jobs::{Done, List};
use crate::members::Members;
use crate::memory::Memory;
use crate::model::Model;
use crate::output;
use crate::progress::{waiting, Progress};
use crate::schedule::Schedule;

pub const FROM: Opt = Opt { name: "--from", value: Some("K"), about: "from place K of the list on; places count from 1" };
pub const TO: Opt = Opt { name: "--to", value: Some("L"), about: "up to place L of the list, not with it" };

/// What is said where places have to be walked to.
pub const WALKS: &str = "under total store order no call finds a place of the list: the list is walked from its beginning";

/// From a place on, up to another and not with it.
#[derive(Clone, Copy, Debug, PartialEq, Eq)]
pub struct Places {
    pub from: u64,
    pub to: Option<u64>,
}

impl Places {
    pub fn of(arguments: &Arguments) -> Result<Places, Error> {
        arguments.one_of_these(&[FROM.name, "--after"])?;
        arguments.one_of_these(&[TO.name, "--until"])?;
        let from = arguments.number(FROM.name, u64::MAX)?;
        let to = arguments.flag(TO.name).then(|| arguments.number(TO.name, u64::MAX)).transpose()?;
        if let Some(to) = to.filter(|to| *to < from) {
            return Err(Error::usage(format!("--to {to} stands before --from {from}")));
        }
        Ok(Places { from, to })
    }

    /// All that there are?
    pub fn are_all(&self) -> bool {
        self.from == 1 && self.to.is_none()
    }

    /// Is this place one of them?
    pub fn have(&self, place: u64) -> bool {
        place >= self.from && !self.are_before(place)
    }

    /// Is this place behind them?
    pub fn are_before(&self, place: u64) -> bool {
        self.to.is_some_and(|to| place >= to)
    }

    /// So many of a list of so many members.
    pub fn of_so_many(&self, listed: u64) -> u64 {
        let end = self.to.map_or(listed, |to| listed.min(to - 1));
        end.saturating_sub(self.from - 1)
    }

    /// The list, no more of it than these places.
    pub fn of_list<'a>(&self, list: List<'a>, memory: Memory) -> Result<List<'a>, Error> {
        if self.are_all() {
            return Ok(list);
        }
        let mut finder = Finder::of(&list, memory);
        let mut piece = List { ..list };
        if let Some(front) = self.from.checked_sub(1).filter(|front| *front > 0) {
            let last = finder.at(&list, front)?;
            if last.is_none() || finder.at(&list, self.from)?.is_none() {
                output::tell(&format!("the list has no place {}: it is shorter", self.from));
            }
            match last {
                Some(last) => piece.after = Some(last),
                None => return Ok(list.none()),
            }
        }
        match self.to.map(|to| to - 1) {
            None => Ok(piece),
            Some(0) => Ok(list.none()),
            Some(last) => {
                piece.until = finder.at(&list, last)?.or(piece.until);
                Ok(piece)
            }
        }
    }
}

/// Finds members by their places.
pub enum Finder {
    /// By a call of the library.
    Called(Members),
    /// By a walk from the beginning, or behind a member whose place is known.
    Walked(Option<(u64, Schedule)>),
}

impl Finder {
    /// Of a whole list. Where it has to be walked that is said.
    pub fn of(list: &List, memory: Memory) -> Finder {
        match list.program.model {
            Model::Sc => Finder::Called(Members::of(list.file, list.program, memory)),
            Model::Tso => {
                output::tell(WALKS);
                Finder::Walked(None)
            }
        }
    }

    /// The member at a place, from 1; none where the list has not so many. Ctrl-C is an error.
    pub fn at(&mut self, list: &List, place: u64) -> Result<Option<Schedule>, Error> {
        match self {
            Finder::Called(members) => Ok(waiting(|| members.schedule_at(place))),
            Finder::Walked(known) => {
                let behind = known.filter(|(known, _)| *known <= place);
                let found = walked(list, behind, place)?;
                *known = found.map(|found| (place, found)).or(*known);
                Ok(found)
            }
        }
    }
}

/// Walks to a place, from the beginning or from a member whose place is known.
fn walked(list: &List, behind: Option<(u64, Schedule)>, place: u64) -> Result<Option<Schedule>, Error> {
    if let Some((_, found)) = behind.filter(|(known, _)| *known == place) {
        return Ok(Some(found));
    }
    tarczolin_sys::note_interrupts();
    let (front, last) = behind.unzip();
    let (mut counts, mut cut) = (Counts { listed: front.unwrap_or(0), failing: 0 }, false);
    let (mut progress, mut done) = (Progress::default(), Done::by_range(list));
    let found = list.walk(last, |listed| {
        cut = tarczolin_sys::was_interrupted();
        if cut {
            return true;
        }
        counts.add(listed.fails);
        progress.tell(counts, || Some(done.share(counts.listed, &listed.schedule)));
        counts.listed == place
    });
    progress.hide();
    match cut {
        true => Err(Error::Interrupted(counts)),
        false => Ok(found),
    }
}
