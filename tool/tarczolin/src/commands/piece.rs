//! A piece of the list: what `--after`, `--until`, `--from`, `--to` and `--jobs` ask for, walked with progress and until Ctrl-C.
use super::arguments::Arguments;
use super::lent::memory;
use super::models::model;
use super::opt::Opt;
use super::places::Places;
use crate::ask::Counts;
use crate::error::Error;
use crate::jobs::{self, Done, List, Part};
use crate::memory::Memory;
use crate::model::{is_move, thread, Model, MOVE};
use crate::output;
use crate::progress::{self, Progress};
use crate::schedule::Schedule;
use std::io;
use std::sync::mpsc::{channel, Receiver, RecvTimeoutError};
use std::sync::Arc;
use std::time::Duration;
use tarczolin_sys::Scratch;

/// At most so many jobs.
pub const JOBS: u64 = 256;

pub const JOBS_OPTION: Opt = Opt { name: "--jobs", value: Some("N"), about: "so many threads walk pieces of the list" };
pub const AFTER: Opt = Opt { name: "--after", value: Some("SCHEDULE"), about: "only what is listed behind this schedule" };
pub const UNTIL: Opt = Opt { name: "--until", value: Some("SCHEDULE"), about: "only what is listed up to this schedule" };

/// What a step from 10 to 15 says of a schedule.
const TSO_SCHEDULE: &str = "; steps from 10 to 15 stand in schedules under --model tso";

pub struct Piece {
    pub model: Model,
    pub after: Option<Schedule>,
    pub until: Option<Schedule>,
    pub places: Places,
    pub jobs: usize,
    pub memory: Memory,
}

/// What was found of a list: its counts, the last schedule, the first that fails, and whether Ctrl-C cut it short.
#[derive(Default)]
pub struct Found {
    pub counts: Counts,
    pub last: Option<Schedule>,
    pub first_failing: Option<Schedule>,
    pub cut: bool,
    pub written: Option<io::Error>,
}

impl Piece {
    pub fn of(arguments: &Arguments) -> Result<Piece, Error> {
        let (model, jobs) = (model(arguments)?, arguments.number("--jobs", JOBS)? as usize);
        let [after, until] = [AFTER, UNTIL].map(|option| arguments.schedule(option.name, model.steps()));
        Ok(Piece { model, after: after?, until: until?, places: Places::of(arguments)?, jobs, memory: memory(arguments)? })
    }

    /// Is it the whole list?
    pub fn is_whole(&self) -> bool {
        self.after.is_none() && self.until.is_none() && self.places.are_all()
    }

    /// Is it the whole list by one job? Then one call of the library answers it.
    pub fn is_one_call(&self) -> bool {
        self.is_whole() && self.jobs == 1
    }

    /// The list, no more of it than the piece, whose bounds have no other threads than the program.
    pub fn list<'a>(&self, list: List<'a>) -> Result<List<'a>, Error> {
        let threads = list.program.threads.len();
        for (option, bound) in [(AFTER, &self.after), (UNTIL, &self.until)] {
            let bytes = if self.model == Model::Sc { MOVE } else { 2 * MOVE };
            let names = |byte: u8| byte < bytes && (thread(byte) as usize) < threads;
            let other = bound.iter().flat_map(|bound| bound.iter()).find(|byte| !names(**byte));
            if let Some(t) = other {
                let other_model = if self.model == Model::Sc && is_move(*t) { TSO_SCHEDULE } else { "" };
                let message = format!("{}: there is no thread {t:02x}; the program has {threads}{other_model}", option.name);
                return Err(Error::usage(message));
            }
        }
        self.places.of_list(List { after: self.after, until: self.until, ..list }, self.memory)
    }
}

/// Walks a list and tells progress; `each` gets the parts in order, until it cannot write.
pub fn walk(list: &List, jobs: usize, memory: Memory, each: impl FnMut(&Part) -> io::Result<()>) -> Found {
    walk_with(list, jobs, Done::counted(list, memory), each)
}

/// The same, with what knows how much is done.
pub fn walk_with(list: &List, jobs: usize, done: Done, each: impl FnMut(&Part) -> io::Result<()>) -> Found {
    walk_and_tell(list, jobs, done, Progress::default(), each)
}

fn walk_and_tell(
    list: &List,
    jobs: usize,
    mut done: Done,
    mut progress: Progress,
    mut each: impl FnMut(&Part) -> io::Result<()>,
) -> Found {
    tarczolin_sys::note_interrupts();
    let mut found = Found::default();
    let handed = jobs::parts(list, jobs, |part| {
        found.counts += part.counts;
        found.last = part.last.or(found.last);
        found.first_failing = found.first_failing.or(part.first_failing);
        found.cut = part.cut;
        progress.give_way();
        each(&part)?;
        progress.tell(found.counts, || found.last.map(|last| done.share(found.counts.listed, &last)));
        Ok(())
    });
    progress.hide();
    found.written = handed.err();
    found
}

/// The answer of one call of the library on the file of a list, with memory lent to it. Where it takes a while the rows of the list are
/// walked beside it, only to tell how far that is, and how full the memory where it is one of states alone; what was walked is given back
/// where Ctrl-C came before the answer. With progress off the call stands alone.
pub fn answered<T: Send + 'static>(
    list: &List,
    scratch: Scratch,
    of_states: bool,
    call: impl FnOnce(&[u8], &Scratch) -> T + Send + 'static,
) -> Result<T, Box<Found>> {
    if progress::every().is_none() {
        return Ok(call(list.file, &scratch));
    }
    let scratch = Arc::new(scratch);
    tarczolin_sys::note_interrupts();
    let (done, wait) = channel();
    let (file, lent) = (list.file.to_vec(), scratch.clone());
    std::thread::spawn(move || done.send(call(&file, &lent)));
    if let Some(answer) = soon(&wait) {
        return Ok(answer);
    }
    let mut answer = None;
    let seen = of_states && list.program.model == Model::Sc;
    let progress = if seen { Progress::beside(scratch) } else { Progress::default() };
    let found = walk_and_tell(list, 1, Done::by_range(list), progress, |_| {
        answer = wait.try_recv().ok();
        answer.as_ref().map_or(Ok(()), |_| Err(io::Error::other("answered")))
    });
    // where the rows have ended before the call, only the call is waited for
    while answer.is_none() && !tarczolin_sys::was_interrupted() {
        answer = soon(&wait);
    }
    answer.ok_or_else(|| Box::new(Found { cut: true, ..found }))
}

/// What comes within a while that nobody notices, if it does.
fn soon<T>(wait: &Receiver<T>) -> Option<T> {
    match wait.recv_timeout(Duration::from_millis(200)) {
        Err(RecvTimeoutError::Disconnected) => panic!("the call of the library has failed"),
        answer => answer.ok(),
    }
}

/// Says how far a walk came that Ctrl-C cut short, and from where it can go on.
pub fn tell_cut(found: &Found) {
    if found.cut {
        tell_interrupted(found.counts, found.last.map(|last| format!("--after {last}")));
    }
}

/// Says what was found until Ctrl-C, and by which words it goes on.
pub fn tell_interrupted(counts: Counts, words: Option<String>) {
    let Counts { listed, failing } = counts;
    let further = words.map_or(String::new(), |words| format!("; go on with {words}"));
    output::tell(&format!("interrupted: {listed} listed, {failing} failing so far{further}"));
}
