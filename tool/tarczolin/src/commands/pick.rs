//! Members of a list at chosen places, by one walk where the list is short, else by a call for each.
use super::piece;
use crate::ask::{self, Counts, Listed};
use crate::error::Error;
use crate::jobs::List;
use crate::members::Members;
use crate::memory::Memory;
use crate::model::Model;
use crate::progress::Progress;
use std::collections::BTreeMap;
use tarczolin_sys::Scratch;

/// A list of no more members than this is soon walked.
pub const SHORT: u64 = 1_000_000;

/// The counts of a whole list under sequential consistency, by one call of the library; Ctrl-C is an error.
pub fn counts(list: &List, memory: Memory) -> Result<Counts, Error> {
    let call = move |file: &[u8], scratch: &Scratch| ask::count_in(Model::Sc, file, scratch);
    let counts = piece::answered(list, memory.looked_at(Model::Sc, list.program), true, call)
        .map_err(|found| Error::Interrupted(found.counts))?;
    Ok(counts.expect("the file is accepted"))
}

/// How long a list is under sequential consistency, and its members at the places that are chosen by that, in the order in which they are
/// chosen; every place is one of the list's.
pub fn members(list: &List, memory: Memory, choose: impl FnOnce(u64) -> Vec<u64>) -> Result<(u64, Vec<Listed>), Error> {
    let listed = counts(list, memory)?.listed;
    let places = choose(listed);
    let found = if listed <= SHORT { walked(list, &places)? } else { called(list, memory, &places)? };
    Ok((listed, places.iter().map(|place| found[place]).collect()))
}

/// Says how far it is, and whether Ctrl-C came.
fn interrupted(progress: &mut Progress, done: u64, all: u64, how: &str) -> bool {
    progress.say(|| format!("{done} of {all} members {how}"));
    tarczolin_sys::was_interrupted()
}

fn walked(list: &List, places: &[u64]) -> Result<BTreeMap<u64, Listed>, Error> {
    tarczolin_sys::note_interrupts();
    let mut found: BTreeMap<u64, Option<Listed>> = places.iter().map(|place| (*place, None)).collect();
    let last = found.keys().next_back().copied().unwrap_or(0);
    let (mut progress, mut counts) = (Progress::default(), Counts::default());
    list.walk(None, |listed| {
        counts.add(listed.fails);
        if let Some(place) = found.get_mut(&counts.listed) {
            *place = Some(*listed);
        }
        let now = counts.listed.is_multiple_of(1024);
        counts.listed >= last || (now && interrupted(&mut progress, counts.listed, last, "walked"))
    });
    progress.hide();
    let all = found.into_iter().map(|(place, listed)| Some((place, listed?))).collect::<Option<_>>();
    all.ok_or(Error::Interrupted(counts))
}

fn called(list: &List, memory: Memory, places: &[u64]) -> Result<BTreeMap<u64, Listed>, Error> {
    tarczolin_sys::note_interrupts();
    let mut members = Members::of(list.file, list.program, memory);
    let (mut progress, mut found) = (Progress::default(), BTreeMap::new());
    for (k, place) in (0..).zip(places) {
        if interrupted(&mut progress, k, places.len() as u64, "found") {
            progress.hide();
            return Err(Error::Interrupted(Counts::default()));
        }
        found.entry(*place).or_insert_with(|| members.at(*place).expect("the place is one of the list's"));
    }
    progress.hide();
    Ok(found)
}
