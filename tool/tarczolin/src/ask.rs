//! The library's calls with answers to keep: each lends an output that is long enough and takes the answer out of it.
use crate::model::Model;
use crate::schedule::Schedule;
use tarczolin_sys::{self as library, across, tso, Answer, Covers, Scratch, GRAPH, VALUES};

/// A refusal: its number and its place.
#[derive(Clone, Copy, Debug, PartialEq, Eq)]
pub struct Refusal {
    pub number: u8,
    pub place: u64,
}

/// How many schedules are listed, and how many of these fail.
#[derive(Clone, Copy, Debug, Default, PartialEq, Eq)]
pub struct Counts {
    pub listed: u64,
    pub failing: u64,
}

/// A listed schedule, and whether it fails.
#[derive(Clone, Copy, Debug, PartialEq, Eq)]
pub struct Listed {
    pub schedule: Schedule,
    pub fails: bool,
}

/// Room for listed schedules, as the library writes them.
pub struct Rows {
    model: Model,
    bytes: Vec<u8>,
    written: usize,
}

/// How an execution ends, its registers apart: the eight final values, and whether it fails.
#[derive(Clone, Copy, Debug, PartialEq, Eq, PartialOrd, Ord)]
pub struct Outcome {
    pub memory: [u32; 8],
    pub fails: bool,
}

/// An outcome, and the first listed schedule that has it.
#[derive(Clone, Copy, Debug, PartialEq, Eq)]
pub struct Attained {
    pub outcome: Outcome,
    pub first: Schedule,
}

/// So many outcomes are asked for at first, and at most so many at a time. Each time the program is gone through anew, up to the last of them, so
/// that every page is so many times as long as the one before.
const FEW: usize = 1 << 6;
const MANY: usize = 1 << 18;
const LONGER: usize = 8;

/// The length that an answer carries, or none for no more, none and no.
fn length(answer: Answer) -> Result<Option<usize>, Refusal> {
    match answer {
        Answer::Answered(length) => Ok(Some(length as usize)),
        Answer::None => Ok(None),
        Answer::Refused(number, place) => Err(Refusal { number, place }),
    }
}

/// The schedule that a call answers, or none.
fn schedule(call: impl FnOnce(&mut [u8]) -> Answer) -> Result<Option<Schedule>, Refusal> {
    let mut out = [0; tso::SCHEDULE];
    let length = length(call(&mut out))?;
    Ok(length.map(|length| Schedule::of_output(&out[..length])))
}

/// Is this an accepted program file?
pub fn check(file: &[u8]) -> Result<(), Refusal> {
    length(library::check(file)).map(|_| ())
}

/// The same for the listing of this model, which may take fewer accesses. Either is one call.
pub fn accepted(model: Model, file: &[u8]) -> Result<(), Refusal> {
    match model {
        Model::Sc => check(file),
        // with no output at all 22 refuses what the file does not, behind all that the file is refused by
        Model::Tso => match tso::start(file, &mut []) {
            Answer::Refused(number, place) if number != 22 => Err(Refusal { number, place }),
            _ => Ok(()),
        },
    }
}

impl Counts {
    /// One more listed schedule, which fails or not.
    pub fn add(&mut self, fails: bool) {
        self.listed += 1;
        self.failing += fails as u64;
    }
}

impl std::ops::Add for Counts {
    type Output = Counts;

    fn add(mut self, other: Counts) -> Counts {
        self += other;
        self
    }
}

impl std::ops::AddAssign for Counts {
    fn add_assign(&mut self, other: Counts) {
        self.listed += other.listed;
        self.failing += other.failing;
    }
}

impl Listed {
    fn of_row(row: &[u8]) -> Listed {
        Listed { schedule: Schedule::of_output(&row[2..2 + row[0] as usize]), fails: row[1] == 1 }
    }
}

impl Rows {
    /// Room for so many.
    pub fn new(model: Model, room: usize) -> Rows {
        Rows { model, bytes: vec![0; room * model.row()], written: 0 }
    }

    pub fn room(&self) -> usize {
        self.bytes.len() / self.model.row()
    }

    /// Asks for the listed schedules from the first one on, or behind a schedule: as many as there is room for. Says whether
    /// there may be more.
    pub fn fill(&mut self, file: &[u8], behind: Option<&[u8]>) -> Result<bool, Refusal> {
        let answer = match (self.model, behind) {
            (Model::Sc, None) => library::rows(file, &mut self.bytes),
            (Model::Sc, Some(last)) => library::rows_after(file, last, &mut self.bytes),
            (Model::Tso, None) => tso::rows(file, &mut self.bytes),
            (Model::Tso, Some(last)) => tso::rows_after(file, last, &mut self.bytes),
        };
        self.written = length(answer)?.unwrap_or(0);
        Ok(self.written == self.room())
    }

    /// What the last call wrote, in order.
    pub fn listed(&self) -> impl DoubleEndedIterator<Item = Listed> + '_ {
        self.bytes.chunks_exact(self.model.row()).take(self.written).map(Listed::of_row)
    }
}

/// The first listed schedule that fails, or none. States are remembered in the scratch; with none the list is walked.
pub fn violation(model: Model, file: &[u8], scratch: &mut [u64]) -> Result<Option<Schedule>, Refusal> {
    schedule(|out| match model {
        Model::Sc if scratch.is_empty() => library::violation(file, out),
        Model::Sc => library::violation_with(file, out, scratch),
        Model::Tso => tso::violation_with(file, out, scratch),
    })
}

/// The same, in memory that another thread may look at.
pub fn violation_in(model: Model, file: &[u8], scratch: &Scratch) -> Result<Option<Schedule>, Refusal> {
    schedule(|out| match model {
        Model::Sc if scratch.words() == 0 => library::violation(file, out),
        Model::Sc => scratch.violation(file, out),
        Model::Tso => scratch.tso_violation(file, out),
    })
}

/// The same as `count`, in memory that another thread may look at.
pub fn count_in(model: Model, file: &[u8], scratch: &Scratch) -> Result<Counts, Refusal> {
    let mut counts = Counts::default();
    let Counts { listed, failing } = &mut counts;
    length(match model {
        Model::Sc if scratch.words() == 0 => library::count(file, listed, failing),
        Model::Sc => scratch.count(file, listed, failing),
        Model::Tso => scratch.tso_count(file, listed, failing),
    })?;
    Ok(counts)
}

/// How many schedules are listed, and how many of these fail. States are remembered in the scratch; with none the list is walked.
pub fn count(model: Model, file: &[u8], scratch: &mut [u64]) -> Result<Counts, Refusal> {
    let mut counts = Counts::default();
    let Counts { listed, failing } = &mut counts;
    length(match model {
        Model::Sc if scratch.is_empty() => library::count(file, listed, failing),
        Model::Sc => library::count_with(file, listed, failing, scratch),
        Model::Tso => tso::count_with(file, listed, failing, scratch),
    })?;
    Ok(counts)
}

/// The listed schedule of this number, from 0, under sequential consistency; none where the list has not so many.
pub fn kth(file: &[u8], number: u64, scratch: &mut [u64]) -> Result<Option<Schedule>, Refusal> {
    schedule(|out| library::kth(file, number, out, scratch))
}

/// How many listed schedules are smaller than this full one, listed or not, under sequential consistency.
pub fn rank(file: &[u8], schedule: &[u8], scratch: &mut [u64]) -> Result<u64, Refusal> {
    let mut rank = 0;
    length(library::rank(file, schedule, &mut rank, scratch))?;
    Ok(rank)
}

/// The text of the graph of a full schedule.
pub fn graph(model: Model, file: &[u8], schedule: &[u8]) -> Result<Vec<u8>, Refusal> {
    let mut out = vec![0; GRAPH];
    let length = length(match model {
        Model::Sc => library::graph(file, schedule, &mut out),
        Model::Tso => tso::graph(file, schedule, &mut out),
    })?;
    out.truncate(length.unwrap_or(0));
    Ok(out)
}

/// How many executions a full schedule stands for: the different graphs alike to its own, itself counted.
pub fn class(model: Model, file: &[u8], schedule: &[u8]) -> Result<u64, Refusal> {
    let answer = match model {
        Model::Sc => library::class(file, schedule),
        Model::Tso => tso::class(file, schedule),
    };
    length(answer).map(|size| size.unwrap_or(0) as u64)
}

/// The least schedule that makes this graph, or no.
pub fn judge(file: &[u8], graph: &[u8]) -> Result<Option<Schedule>, Refusal> {
    schedule(|out| library::judge(file, graph, out))
}

/// A program file, and the model that it runs under.
pub type Under<'a> = (Model, &'a [u8]);

/// The first listed schedule of the second program under its model with an outcome that the first lacks under its own, or none where it is
/// covered. Which file is refused does not stand in the refusal: the first is asked about first. Outcomes and states are remembered in
/// the scratch.
pub fn covers(first: Under, second: Under, scratch: &mut [u64]) -> Result<Option<Schedule>, Refusal> {
    let mut out = [0; tso::SCHEDULE];
    let [one, other] = [first, second].map(|(model, file)| across::Under { model: model.byte(), file });
    let answer = match (first.0, second.0) {
        (Model::Sc, Model::Sc) => library::covers_with(first.1, second.1, &mut out, scratch),
        _ => across::covers_models(one, other, &mut out, scratch),
    };
    match answer {
        Covers::Covered => Ok(None),
        Covers::Lacking(length) => Ok(Some(Schedule::of_output(&out[..length as usize]))),
        Covers::Refused(number, place) | Covers::SecondRefused(number, place) => Err(Refusal { number, place }),
    }
}

impl Attained {
    fn of_row(row: &[u8]) -> Attained {
        let (values, listed) = row.split_at(VALUES);
        let value = |l: usize| u32::from_be_bytes([0, 1, 2, 3].map(|k| values[4 * l + k]));
        let Listed { schedule, fails } = Listed::of_row(listed);
        Attained { outcome: Outcome { memory: std::array::from_fn(value), fails }, first: schedule }
    }
}

/// All outcomes, each once, in the order of the first listed schedules that have them. Outcomes and states are remembered in the scratch.
pub fn outcomes(model: Model, file: &[u8], scratch: &Scratch) -> Result<Vec<Attained>, Refusal> {
    outcomes_until(model, file, scratch, |_| false)
}

/// The same, or the first of them, once these are enough.
pub fn outcomes_until(
    model: Model,
    file: &[u8],
    scratch: &Scratch,
    enough: impl Fn(&[Attained]) -> bool,
) -> Result<Vec<Attained>, Refusal> {
    let (mut all, mut room) = (Vec::new(), FEW);
    loop {
        let mut out = vec![0; room * model.outcome()];
        let from = all.len() as u64;
        let answer = match model {
            Model::Sc => scratch.outcomes(file, from, &mut out),
            Model::Tso => scratch.tso_outcomes(file, from, &mut out),
        };
        let written = length(answer)?.unwrap_or(0);
        all.extend(out.chunks_exact(model.outcome()).take(written).map(Attained::of_row));
        if written < room || enough(&all) {
            return Ok(all);
        }
        room = MANY.min(LONGER * room);
    }
}

/// The first listed schedule of total store order whose graph is not consistent, or none where the program is robust.
pub fn robust(file: &[u8]) -> Result<Option<Schedule>, Refusal> {
    schedule(|out| across::robust(file, out))
}

/// Who can force its end.
#[derive(Clone, Copy, Debug, PartialEq, Eq)]
pub enum Force {
    /// The hostile side, with its least first step that keeps the win, if it has a step before the first one.
    Hostile(Option<u8>),
    Friendly,
}

/// Who can force its end where the hostile side has the threads in the set, bit t for thread t? States are remembered in the scratch.
pub fn force(file: &[u8], set: u8, scratch: &mut [u64]) -> Result<Force, Refusal> {
    Ok(match length(library::force_with(file, set, scratch))? {
        Some(step) => Force::Hostile(step.checked_sub(1).map(|t| t as u8)),
        None => Force::Friendly,
    })
}
