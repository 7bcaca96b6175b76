//! Four users on one explorer, by the words of document 02's requests h, j and m: what each call answers and leaves, for any content of the
//! records that a host lends.
use super::decode::{decode, Program};
use super::listing::{self, Listed};
use super::machine::run_full;
use super::{refused, Refusal};
use std::collections::HashMap;
use std::rc::Rc;

/// A caller's record as it lies in the host's memory: any content is possible.
#[derive(Clone, Debug, PartialEq, Eq)]
pub struct Record {
    pub file: Vec<u8>,
    pub length: u64,
    pub count: u64,
    pub place: u8,
    pub asking: u8,
    pub steps: u8,
    pub schedule: [u8; 24],
    pub handed: u8,
    pub size: u8,
    pub newest: [u8; 24],
    pub marks: [Mark; 8],
    pub padding: [u8; 3],
}

/// A mark as it lies there.
#[derive(Clone, Copy, Debug, PartialEq, Eq)]
pub struct Mark {
    pub name: [u8; 8],
    pub length: u8,
    pub place: u8,
    pub steps: u8,
    pub schedule: [u8; 24],
}

/// One that is free: nothing in it.
pub const FREE: Mark = Mark { name: [0; 8], length: 0, place: 0, steps: 0, schedule: [0; 24] };

impl Mark {
    /// The name, where the mark is not free by itself: its name has 1 to 8 bytes, and its place is the beginning or a full schedule.
    pub fn name(&self, program: &Program) -> Option<&[u8]> {
        let name = self.name.get(..self.length as usize).filter(|name| !name.is_empty())?;
        let place = place(program, self.place, self.steps, &self.schedule)?;
        (place != Place::End).then_some(name)
    }
}

/// The name of each mark of a record that counts, none for those that count as free.
pub type Names = Vec<Option<Vec<u8>>>;

/// A place, if it is one: the beginning, behind a full schedule, or the end.
fn place(program: &Program, number: u8, steps: u8, schedule: &[u8; 24]) -> Option<Place> {
    match number {
        1 => Some(Place::Beginning),
        2 => {
            let steps = schedule.get(..steps as usize)?;
            run_full(program, steps).ok().map(|_| Place::Behind(steps.to_vec()))
        }
        3 => Some(Place::End),
        _ => None,
    }
}

/// A place in a program's list.
#[derive(Clone, Debug, PartialEq, Eq)]
pub enum Place {
    Beginning,
    Behind(Vec<u8>),
    End,
}

/// What an open record reads as: a program, the place, and whether it asks. A closed one reads as nothing.
#[derive(Clone, Debug, PartialEq, Eq)]
pub struct Seat {
    pub file: Vec<u8>,
    pub place: Place,
    pub asks: bool,
}

/// What a call says. A refusal is the other side of a result.
#[derive(Clone, Debug, PartialEq, Eq)]
pub enum Said {
    Done,
    Schedule(u8, Vec<u8>),
    NoMore(u8),
    Idle,
}

/// A call; a serve has an output of so many bytes.
#[derive(Clone, Debug, PartialEq, Eq)]
pub enum Call {
    Open(usize, Vec<u8>),
    Ask(usize),
    Serve(usize),
    Close(usize),
    Set(usize, Vec<u8>),
    Return(usize, Vec<u8>),
    Forget(usize, Vec<u8>),
}

/// What goes into each call and comes out of it.
#[derive(Clone, Debug, PartialEq, Eq)]
pub struct Shared {
    pub records: Vec<Record>,
    pub last: u64,
}

/// Lists by brute force, each worked out once.
#[derive(Default)]
pub struct Lists(HashMap<Vec<u8>, Rc<Vec<Listed>>>);

impl Lists {
    /// The list of an accepted file.
    pub fn of(&mut self, file: &[u8]) -> Rc<Vec<Listed>> {
        let list = || Rc::new(listing::list(&decode(file).expect("the file is accepted")));
        self.0.entry(file.to_vec()).or_insert_with(list).clone()
    }
}

impl Record {
    /// A fresh one, as closing leaves it: nothing in it.
    pub fn fresh() -> Record {
        let (place, asking, steps, schedule) = (0, 0, 0, [0; 24]);
        let (handed, size, newest, marks, padding) = (0, 0, [0; 24], [FREE; 8], [0; 3]);
        Record { file: vec![0; 4096], length: 0, count: 0, place, asking, steps, schedule, handed, size, newest, marks, padding }
    }

    /// Opened with this accepted file: before the first schedule.
    fn opened(file: &[u8]) -> Record {
        let mut record = Record { length: file.len() as u64, place: 1, ..Record::fresh() };
        record.file[..file.len()].copy_from_slice(file);
        record
    }

    /// One whose program would be refused, or whose place is none, counts as closed and empty.
    pub fn seat(&self) -> Option<Seat> {
        if self.length > 4096 {
            return None;
        }
        let file = &self.file[..self.length as usize];
        let place = place(&decode(file).ok()?, self.place, self.steps, &self.schedule)?;
        Some(Seat { file: file.to_vec(), place, asks: self.asking == 1 })
    }

    /// Its asking ends, and it stands behind what it was given.
    fn served(&mut self, given: Option<&[u8]>) {
        (self.asking, self.place, self.steps, self.schedule) = (0, 3, 0, [0; 24]);
        if let Some(steps) = given {
            (self.place, self.steps) = (2, steps.len() as u8);
            self.schedule[..steps.len()].copy_from_slice(steps);
            (self.handed, self.size, self.newest) = (1, self.steps, self.schedule);
            // repeats after a return included
            self.count = self.count.wrapping_add(1);
        }
    }

    /// The name of each mark that counts; of two with one name the later counts as free.
    pub fn names(&self, program: &Program) -> Names {
        let mut names = Names::new();
        for mark in &self.marks {
            let name = mark.name(program).map(<[u8]>::to_vec).filter(|name| !names.contains(&Some(name.clone())));
            names.push(name);
        }
        names
    }

    /// Every mark of this name is emptied, also one that counts as free since an earlier one has its name.
    fn empty(&mut self, program: &Program, name: &[u8]) {
        self.marks.iter_mut().filter(|mark| mark.name(program) == Some(name)).for_each(|mark| *mark = FREE);
    }

    /// The mark that set stores: the last schedule handed since it opened, or the beginning if there is none; one that isn't full
    /// counts as none.
    fn mark(&self, program: &Program, name: &[u8]) -> Mark {
        let mut mark = Mark { length: name.len() as u8, place: 1, ..FREE };
        mark.name[..name.len()].copy_from_slice(name);
        if self.handed == 1 && place(program, 2, self.size, &self.newest).is_some() {
            (mark.place, mark.steps, mark.schedule) = (2, self.size, self.newest);
        }
        mark
    }
}

impl Shared {
    /// Four fresh records; before any serve the last caller is 3.
    pub fn fresh() -> Shared {
        Shared { records: vec![Record::fresh(); 4], last: 3 }
    }

    /// A number above 3 is read as 3.
    fn last_read(&self) -> u64 {
        self.last.min(3)
    }

    /// 22 refuses a list that hasn't exactly four records, before all else.
    fn four(&self) -> Result<(), Refusal> {
        if self.records.len() == 4 {
            Ok(())
        } else {
            refused(22, 0)
        }
    }

    /// 42, a caller above 3; else what its record reads as.
    fn seat(&self, caller: usize) -> Result<Option<Seat>, Refusal> {
        self.four()?;
        match self.records.get(caller) {
            Some(record) => Ok(record.seat()),
            None => refused(42, 0),
        }
    }

    /// 44, ask, close, set, return or forget for a closed one.
    fn open_only(&self, caller: usize) -> Result<&Record, Refusal> {
        match self.seat(caller)? {
            Some(_) => Ok(&self.records[caller]),
            None => refused(44, 0),
        }
    }

    /// Carries a call out. A refusal changes nothing.
    pub fn call(&mut self, lists: &mut Lists, call: &Call) -> Result<Said, Refusal> {
        let said = match call {
            Call::Open(caller, file) => self.open(*caller, file),
            Call::Ask(caller) => self.ask(*caller),
            Call::Serve(output) => self.serve(lists, *output),
            Call::Close(caller) => self.close(*caller),
            Call::Set(caller, name) => self.set(*caller, name),
            Call::Return(caller, name) => self.return_to(*caller, name),
            Call::Forget(caller, name) => self.forget(*caller, name),
        }?;
        self.last = match said {
            Said::Schedule(caller, _) | Said::NoMore(caller) => caller as u64,
            Said::Done | Said::Idle => self.last_read(),
        };
        Ok(said)
    }

    /// 43, open for an open caller; then the file's refusals.
    fn open(&mut self, caller: usize, file: &[u8]) -> Result<Said, Refusal> {
        if self.seat(caller)?.is_some() {
            return refused(43, 0);
        }
        decode(file)?;
        self.records[caller] = Record::opened(file);
        Ok(Said::Done)
    }

    /// Asking twice is asking once.
    fn ask(&mut self, caller: usize) -> Result<Said, Refusal> {
        self.open_only(caller)?;
        self.records[caller].asking = 1;
        Ok(Said::Done)
    }

    /// The next asking caller after the last one served, in turn, 0 after 3, gets one listed schedule or no more.
    fn serve(&mut self, lists: &mut Lists, output: usize) -> Result<Said, Refusal> {
        self.four()?;
        if output < 24 {
            return refused(22, 0);
        }
        let in_turn = [1, 2, 3, 4].map(|d| ((self.last_read() + d) % 4) as u8);
        for caller in in_turn {
            let record = &mut self.records[caller as usize];
            let Some(seat) = record.seat().filter(|seat| seat.asks) else { continue };
            let list = lists.of(&seat.file);
            let next = match seat.place {
                Place::Beginning => listing::start(&list),
                Place::Behind(schedule) => listing::after(&list, &schedule),
                Place::End => None,
            };
            record.served(next.as_deref());
            return Ok(match next {
                Some(schedule) => Said::Schedule(caller, schedule),
                None => Said::NoMore(caller),
            });
        }
        Ok(Said::Idle)
    }

    fn close(&mut self, caller: usize) -> Result<Said, Refusal> {
        self.open_only(caller)?;
        self.records[caller] = Record::fresh();
        Ok(Said::Done)
    }

    /// 44, then 45, a name of another length than 1 to 8; else the program, and the names that count.
    fn named(&self, caller: usize, name: &[u8]) -> Result<(Program, Names), Refusal> {
        let record = self.open_only(caller)?;
        if name.is_empty() || name.len() > 8 {
            return refused(45, 0);
        }
        let program = decode(&record.file[..record.length as usize]).expect("the record is open");
        let names = record.names(&program);
        Ok((program, names))
    }

    /// A used name is overwritten; else the first free mark takes it, or 47, a ninth name.
    fn set(&mut self, caller: usize, name: &[u8]) -> Result<Said, Refusal> {
        let (program, names) = self.named(caller, name)?;
        let used = names.iter().position(|one| one.as_deref() == Some(name));
        let Some(at) = used.or_else(|| names.iter().position(Option::is_none)) else { return refused(47, 0) };
        let record = &mut self.records[caller];
        record.empty(&program, name);
        record.marks[at] = record.mark(&program, name);
        Ok(Said::Done)
    }

    /// 46, an unknown name; else the place is the mark's. The asking, the count and the last schedule handed stay.
    fn return_to(&mut self, caller: usize, name: &[u8]) -> Result<Said, Refusal> {
        let (_, names) = self.named(caller, name)?;
        let Some(at) = names.iter().position(|one| one.as_deref() == Some(name)) else { return refused(46, 0) };
        let record = &mut self.records[caller];
        let mark = record.marks[at];
        (record.place, record.steps, record.schedule) = (mark.place, mark.steps, mark.schedule);
        Ok(Said::Done)
    }

    /// 46, an unknown name; else it is free for use.
    fn forget(&mut self, caller: usize, name: &[u8]) -> Result<Said, Refusal> {
        let (program, names) = self.named(caller, name)?;
        if !names.iter().any(|one| one.as_deref() == Some(name)) {
            return refused(46, 0);
        }
        self.records[caller].empty(&program, name);
        Ok(Said::Done)
    }
}
