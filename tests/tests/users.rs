//! Four users on one explorer: the library and the oracle agree on lists of calls, on damaged records too, and what is claimed of every
//! list of calls from four fresh records holds.
use std::collections::BTreeMap;
use tarczolin_tests::files::lines;
use tarczolin_tests::oracle::decode::decode;
use tarczolin_tests::oracle::listing::Listed;
use tarczolin_tests::oracle::users::{Call, Lists, Mark, Record, Said, Seat, Shared, FREE};
use tarczolin_tests::oracle::Refusal;
use tarczolin_tests::random::users::{call, damage, files};
use tarczolin_tests::random::Random;
use tarczolin_tests::share;
use tarczolin_tests::users::held;

/// A list of calls on four records, each held to the oracle.
struct Held {
    random: Random,
    lists: Lists,
    shared: Shared,
}

impl Held {
    fn fresh() -> Held {
        Held { random: Random::new(0x68), lists: Lists::default(), shared: Shared::fresh() }
    }

    fn call(&mut self, call: Call) -> Result<Said, Refusal> {
        held(&mut self.random, &mut self.lists, &mut self.shared, &call)
    }

    fn done(&mut self, call: Call) {
        assert_eq!(self.call(call.clone()), Ok(Said::Done), "{call:?}");
    }

    fn refused(&mut self, call: Call, number: u8) {
        assert_eq!(self.call(call.clone()), Err(Refusal { number, place: 0 }), "{call:?}");
    }

    fn serve(&mut self) -> Said {
        self.call(Call::Serve(24)).expect("an output of 24 bytes is enough")
    }

    fn counts(&self) -> [u64; 4] {
        [0, 1, 2, 3].map(|k| self.shared.records[k].count)
    }
}

/// Document 01's whole case: 00 01 02, 01 00 02, 01 02 00.
const WHOLE: &str = "01 10000000000001 01 110000 01 110000 020102";

#[test]
fn two_people_share_it() {
    let mut host = Held::fresh();
    host.done(Call::Open(0, lines(WHOLE)));
    host.done(Call::Open(2, lines("01 110000")));
    assert_eq!(host.serve(), Said::Idle);
    host.done(Call::Ask(2));
    host.done(Call::Ask(0));
    // asking twice is asking once
    host.done(Call::Ask(0));
    assert_eq!(host.serve(), Said::Schedule(0, vec![0, 1, 2]));
    assert_eq!(host.serve(), Said::Schedule(2, vec![0]));
    assert_eq!(host.serve(), Said::Idle);
    host.done(Call::Ask(2));
    assert_eq!(host.serve(), Said::NoMore(2));
    // no more leaves the place at the end
    host.done(Call::Ask(2));
    assert_eq!(host.serve(), Said::NoMore(2));
    for wanted in [Some([1, 0, 2]), Some([1, 2, 0]), None, None] {
        host.done(Call::Ask(0));
        assert_eq!(host.serve(), wanted.map_or(Said::NoMore(0), |steps| Said::Schedule(0, steps.to_vec())));
    }
    assert_eq!(host.counts(), [3, 0, 1, 0]);
    host.done(Call::Close(0));
    assert_eq!(host.shared.records[0], Record::fresh());
    host.done(Call::Open(0, lines(WHOLE)));
    host.done(Call::Ask(0));
    assert_eq!(host.serve(), Said::Schedule(0, vec![0, 1, 2]));
}

/// 0 first of all, 0 after 3; a refused serve moves nobody.
#[test]
fn in_turn() {
    let mut host = Held::fresh();
    (0..4).for_each(|k| host.done(Call::Open(k, lines("01"))));
    for order in [[0, 1, 2, 3], [0, 1, 2, 3]] {
        [3, 1, 0, 2].iter().for_each(|k| host.done(Call::Ask(*k)));
        for k in order {
            host.refused(Call::Serve(23), 22);
            assert!(matches!(host.serve(), Said::Schedule(caller, _) | Said::NoMore(caller) if caller == k));
        }
    }
    [1, 3].iter().for_each(|k| host.done(Call::Ask(*k)));
    host.shared.last = 1;
    assert_eq!(host.serve(), Said::NoMore(3));
    assert_eq!(host.serve(), Said::NoMore(1));
}

/// 22, 42, 43, 44 in that order, before a file's refusals.
#[test]
fn refusals_in_order() {
    let bad = lines("01 110400");
    let mut host = Held::fresh();
    host.refused(Call::Open(4, bad.clone()), 42);
    host.refused(Call::Ask(256), 42);
    host.refused(Call::Ask(usize::MAX), 42);
    host.refused(Call::Close(4), 42);
    host.refused(Call::Ask(0), 44);
    host.refused(Call::Close(3), 44);
    assert_eq!(host.call(Call::Open(0, bad.clone())), Err(Refusal { number: 4, place: 2 }));
    host.done(Call::Open(0, lines(WHOLE)));
    host.refused(Call::Open(0, bad.clone()), 43);
    host.refused(Call::Open(0, lines(WHOLE)), 43);
    host.refused(Call::Serve(0), 22);
    for records in [0, 1, 3, 5, 8] {
        host.shared.records.resize(records, Record::fresh());
        host.refused(Call::Open(4, bad.clone()), 22);
        host.refused(Call::Ask(4), 22);
        host.refused(Call::Close(0), 22);
        host.refused(Call::Serve(24), 22);
    }
}

/// A last caller above 3 is read as 3, and given back as 3 save by a refusal; a count wraps.
#[test]
fn the_numbers() {
    let mut host = Held::fresh();
    host.done(Call::Open(0, lines("01")));
    host.done(Call::Open(3, lines("01")));
    for last in [4, 7, 256, u64::MAX] {
        for call in [Call::Ask(0), Call::Open(1, lines("01")), Call::Close(1)] {
            host.shared.last = last;
            host.done(call);
            assert_eq!(host.shared.last, 3);
        }
        host.shared.last = last;
        host.refused(Call::Ask(2), 44);
        assert_eq!(host.shared.last, last);
    }
    (host.shared.last, host.shared.records[0].count) = (9, u64::MAX);
    assert_eq!(host.serve(), Said::Schedule(0, vec![]));
    assert_eq!((host.shared.last, host.shared.records[0].count), (0, 0));
    host.shared.last = 200;
    assert_eq!(host.serve(), Said::Idle);
    assert_eq!(host.shared.last, 3);
}

type Damage = fn(&mut Record);

/// A count for each caller: what it was handed since it opened, repeats after a return included; no more and refusals count nowhere.
#[test]
fn a_count_for_each_caller() {
    let mut host = Held::fresh();
    let given = |host: &mut Held, caller| {
        host.done(Call::Ask(caller));
        host.serve()
    };
    host.done(Call::Open(0, lines("01 110000")));
    host.done(Call::Open(1, lines(WHOLE)));
    host.done(Call::Set(0, b"x".to_vec()));
    for round in 1..=3 {
        assert_eq!(given(&mut host, 0), Said::Schedule(0, vec![0]));
        assert_eq!(given(&mut host, 0), Said::NoMore(0));
        host.done(Call::Return(0, b"x".to_vec()));
        assert_eq!(host.counts(), [round, 0, 0, 0]);
    }
    host.done(Call::Ask(1));
    assert_eq!(host.call(Call::Serve(23)), Err(Refusal { number: 22, place: 0 }));
    host.done(Call::Set(1, b"y".to_vec()));
    host.done(Call::Forget(1, b"y".to_vec()));
    assert_eq!(host.counts(), [3, 0, 0, 0]);
    assert_eq!(host.serve(), Said::Schedule(1, vec![0, 1, 2]));
    assert_eq!(host.counts(), [3, 1, 0, 0]);
    // closing empties it, and it begins at 0 with the next opening, whatever a closed record holds
    host.done(Call::Close(0));
    assert_eq!(host.counts(), [0, 1, 0, 0]);
    host.shared.records[0].count = 5;
    host.done(Call::Open(0, lines("01 110000")));
    assert_eq!(given(&mut host, 0), Said::Schedule(0, vec![0]));
    assert_eq!(host.counts(), [1, 1, 0, 0]);
}

/// Records whose program would be refused, or whose place is none, count as closed and empty.
#[test]
fn damaged_records() {
    let damages: [(Damage, bool); 14] = [
        (|r| r.place = 0, false),
        (|r| r.place = 4, false),
        (|r| r.place = 255, false),
        (|r| r.place = 3, true),
        (|r| r.place = 2, false),
        (|r| (r.place, r.steps, r.schedule[0]) = (2, 1, 0), true),
        (|r| (r.place, r.steps, r.schedule[0]) = (2, 1, 1), false),
        (|r| (r.place, r.steps) = (2, 25), false),
        (|r| (r.place, r.steps) = (2, 255), false),
        (|r| r.length = 4097, false),
        (|r| r.length = u64::MAX, false),
        (|r| r.length = 0, true),
        (|r| r.length -= 1, false),
        (|r| r.file[0] = b'x', false),
    ];
    for (damage, stays_open) in damages {
        let mut host = Held::fresh();
        host.done(Call::Open(1, lines("01 110000")));
        host.done(Call::Ask(1));
        damage(&mut host.shared.records[1]);
        assert_eq!(host.serve() != Said::Idle, stays_open);
        damage(&mut host.shared.records[1]);
        if stays_open {
            host.refused(Call::Open(1, lines("01")), 43);
        } else {
            host.refused(Call::Ask(1), 44);
            host.refused(Call::Close(1), 44);
            host.done(Call::Open(1, lines("01")));
        }
    }
    // only a 1 asks
    for asking in [0, 2, 255] {
        let mut host = Held::fresh();
        host.done(Call::Open(0, lines("01")));
        host.shared.records[0].asking = asking;
        assert_eq!(host.serve(), Said::Idle);
    }
}

fn name(text: &str) -> Vec<u8> {
    text.as_bytes().to_vec()
}

impl Held {
    /// Asks and serves.
    fn next(&mut self, caller: usize) -> Option<Vec<u8>> {
        self.done(Call::Ask(caller));
        match self.serve() {
            Said::Schedule(_, schedule) => Some(schedule),
            said => {
                assert_eq!(said, Said::NoMore(caller as u8));
                None
            }
        }
    }
}

/// Set stores the last schedule handed, also after a return; return goes on behind it, and keeps the asking.
#[test]
fn marks_to_come_back_to() {
    let mut host = Held::fresh();
    host.done(Call::Open(1, lines(WHOLE)));
    host.done(Call::Set(1, name("start")));
    assert_eq!([host.next(1), host.next(1)], [Some(vec![0, 1, 2]), Some(vec![1, 0, 2])]);
    host.done(Call::Return(1, name("start")));
    // the last schedule handed, not the place returned to
    host.done(Call::Set(1, name("x")));
    assert_eq!(host.next(1), Some(vec![0, 1, 2]));
    host.done(Call::Ask(1));
    host.done(Call::Return(1, name("x")));
    assert_eq!(host.serve(), Said::Schedule(1, vec![1, 2, 0]));
    assert_eq!([host.next(1), host.next(1)], [None, None]);
    // a used name is overwritten; no more hands nothing
    host.done(Call::Set(1, name("start")));
    host.done(Call::Return(1, name("start")));
    assert_eq!(host.next(1), None);
    host.done(Call::Forget(1, name("x")));
    host.refused(Call::Return(1, name("x")), 46);
    // closing and opening leave no mark
    host.done(Call::Close(1));
    host.done(Call::Open(1, lines(WHOLE)));
    host.refused(Call::Return(1, name("start")), 46);
    assert_eq!(host.next(1), Some(vec![0, 1, 2]));
}

/// 22, 42, 44, 45, then 46 or 47.
#[test]
fn refusals_of_marks_in_order() {
    let mut host = Held::fresh();
    for call in [Call::Set, Call::Return, Call::Forget] {
        host.refused(call(4, name("")), 42);
        host.refused(call(0, name("")), 44);
    }
    host.done(Call::Open(0, lines(WHOLE)));
    for call in [Call::Set, Call::Return, Call::Forget] {
        host.refused(call(0, name("")), 45);
        host.refused(call(0, name("nine char")), 45);
        host.refused(call(0, vec![b'a'; 257]), 45);
    }
    host.refused(Call::Return(0, name("a")), 46);
    host.refused(Call::Forget(0, name("a")), 46);
    for k in 0..8 {
        host.done(Call::Set(0, vec![k]));
    }
    host.refused(Call::Set(0, name("ninth")), 47);
    host.done(Call::Set(0, vec![7]));
    host.refused(Call::Return(0, vec![7, 0]), 46);
    host.done(Call::Forget(0, vec![3]));
    host.done(Call::Set(0, name("ninth")));
    assert_eq!(host.shared.records[0].marks[3].name, *b"ninth\0\0\0");
    host.shared.records.pop();
    host.refused(Call::Set(9, name("")), 22);
}

/// A mark of the name m behind this schedule.
fn mark_behind(steps: &[u8]) -> Mark {
    let mut mark = Mark { length: 1, place: 2, steps: steps.len() as u8, ..FREE };
    mark.name[0] = b'm';
    mark.schedule[..steps.len()].copy_from_slice(steps);
    mark
}

/// A name of another length, a place that is neither the beginning nor a full schedule.
#[test]
fn marks_that_count_as_free() {
    let full = mark_behind(&[0, 1, 2]);
    let free = [
        Mark { length: 0, ..full },
        Mark { length: 9, ..full },
        Mark { length: 255, ..full },
        Mark { place: 0, ..full },
        Mark { place: 3, ..full },
        Mark { place: 255, ..full },
        Mark { steps: 2, ..full },
        Mark { steps: 25, ..full },
        mark_behind(&[0, 1, 3]),
    ];
    for mark in free {
        let mut host = Held::fresh();
        host.done(Call::Open(0, lines(WHOLE)));
        host.shared.records[0].marks[0] = mark;
        host.refused(Call::Return(0, name("m")), 46);
        host.refused(Call::Forget(0, name("m")), 46);
        host.done(Call::Set(0, name("m")));
        assert_eq!(host.shared.records[0].marks[0].place, 1, "the first free slot");
    }
}

/// The earlier counts; set and forget empty the later, and leave as it lies what is free by its place.
#[test]
fn two_marks_of_one_name() {
    let twice = || {
        let mut host = Held::fresh();
        host.done(Call::Open(0, lines(WHOLE)));
        host.shared.records[0].marks[0] = Mark { place: 3, ..mark_behind(&[0, 1, 2]) };
        host.shared.records[0].marks[2] = mark_behind(&[0, 1, 2]);
        host.shared.records[0].marks[5] = mark_behind(&[1, 0, 2]);
        host
    };
    let mut host = twice();
    host.done(Call::Return(0, name("m")));
    assert_eq!(host.next(0), Some(vec![1, 0, 2]));
    for call in [Call::Set, Call::Forget] {
        let (mut host, before) = (twice(), twice().shared.records[0].marks);
        host.done(call(0, name("m")));
        let marks = host.shared.records[0].marks;
        assert_eq!((marks[0], marks[5]), (before[0], FREE));
    }
}

/// Set then stores the beginning.
#[test]
fn a_last_schedule_that_is_not_full_counts_as_none() {
    for damage in [
        |r: &mut Record| r.size = 2,
        |r: &mut Record| r.size = 25,
        |r: &mut Record| r.handed = 2,
        |r: &mut Record| r.newest[2] = 7,
    ] {
        let mut host = Held::fresh();
        host.done(Call::Open(0, lines(WHOLE)));
        assert_eq!(host.next(0), Some(vec![0, 1, 2]));
        damage(&mut host.shared.records[0]);
        host.done(Call::Set(0, name("m")));
        assert_eq!(host.shared.records[0].marks[0].place, 1);
        host.done(Call::Return(0, name("m")));
        assert_eq!(host.next(0), Some(vec![0, 1, 2]));
    }
}

/// What came out, for the counts of a test.
fn kind(call: &Call, said: &Result<Said, Refusal>) -> String {
    let name = format!("{call:?}").split('(').next().unwrap_or_default().to_lowercase();
    match said {
        Ok(Said::Done) => format!("{name}, done"),
        Ok(Said::Schedule(..)) => "schedule".to_string(),
        Ok(Said::NoMore(_)) => "no more".to_string(),
        Ok(Said::Idle) => "idle".to_string(),
        Err(refusal) if refusal.number < 20 || refusal.number == 40 => "the file's".to_string(),
        Err(refusal) => format!("{name}, {}", refusal.number),
    }
}

/// How the marks of an open record read.
fn marks_read(record: &Record) -> Vec<&'static str> {
    let Some(Seat { file, .. }) = record.seat() else { return Vec::new() };
    let program = decode(&file).expect("an open record has a program");
    let names = record.names(&program);
    let read = |(mark, name): (&Mark, &Option<Vec<u8>>)| match (mark.length, mark.place) {
        _ if name.is_some() => "counts",
        _ if *mark == FREE => "empty",
        (0 | 9.., _) => "a name of another length",
        _ if mark.name(&program).is_some() => "later of one name",
        (_, 2) => "not full",
        _ => "no place of a mark",
    };
    record.marks.iter().zip(&names).map(read).collect()
}

/// Lists of thousands of calls, each handed what the one before gave back, with damaged records among them.
#[test]
fn random_lists_of_calls() {
    let mut seen: BTreeMap<String, usize> = BTreeMap::new();
    let mut marks: BTreeMap<&'static str, usize> = BTreeMap::new();
    let (lists, calls) = (share::of(80), 3_000);
    for seed in 0..lists {
        let mut random = Random::new(0x6800 + seed as u64);
        let files = files(&mut random);
        let (mut lists, mut shared) = (Lists::default(), Shared::fresh());
        for _ in 0..calls {
            if seed % 2 == 0 && random.one_in(3) {
                damage(&mut random, &files, &mut shared);
            }
            if random.one_in(60) {
                // a list that hasn't four records, for one call
                let mut other = shared.clone();
                other.records.resize(random.pick(&[0, 1, 2, 3, 5, 6]), Record::fresh());
                let call = call(&mut random, &files);
                let said = held(&mut random, &mut lists, &mut other, &call);
                assert_eq!(said, Err(Refusal { number: 22, place: 0 }));
            }
            let call = call(&mut random, &files);
            if let Call::Set(k @ 0..=3, _) | Call::Return(k @ 0..=3, _) | Call::Forget(k @ 0..=3, _) = call {
                marks_read(&shared.records[k]).into_iter().for_each(|read| *marks.entry(read).or_default() += 1);
            }
            let said = held(&mut random, &mut lists, &mut shared, &call);
            *seen.entry(kind(&call, &said)).or_default() += 1;
        }
    }
    println!("{lists} lists of {calls} calls: {seen:?}; marks that a call on marks met: {marks:?}");
    assert!(!share::whole() || (seen.len() == 29 && seen.values().all(|&n| n > 50)), "{seen:?}");
    assert!(!share::whole() || (marks.len() == 6 && marks.values().all(|&n| n > 1_000)), "{marks:?}");
}

/// One caller's opening: what it was given since it opened or returned, behind which schedule, the serves, refused ones not counted,
/// since it asked, the last schedule handed, how many were, and its marks: behind a schedule, or none for the beginning.
#[derive(Default)]
struct Opening {
    file: Vec<u8>,
    given: Vec<Option<Vec<u8>>>,
    behind: Option<Vec<u8>>,
    waits: Option<usize>,
    last: Option<Vec<u8>>,
    received: u64,
    marks: BTreeMap<Vec<u8>, Option<Vec<u8>>>,
}

impl Opening {
    /// Asking twice is asking once.
    fn asks(&mut self) {
        self.waits = Some(self.waits.unwrap_or(0));
    }

    fn returns(&mut self, name: &[u8]) {
        (self.behind, self.given) = (self.marks[name].clone(), Vec::new());
    }

    /// Served by the fourth serve at the latest, with the next member behind the mark, or no more where there is none.
    fn served(&mut self, lists: &mut Lists, given: Option<Vec<u8>>) {
        assert!(self.waits.take().expect("it asked") <= 4, "the fourth serve at the latest");
        self.received += given.is_some() as u64;
        self.last = given.clone().or(self.last.take());
        self.given.push(given);
        let list = lists.of(&self.file);
        let behind = |l: &&Listed| self.behind.as_ref().is_none_or(|mark| l.schedule > *mark);
        let members = list.iter().filter(behind).map(|l| Some(l.schedule.clone())).chain(std::iter::repeat(None));
        assert!(self.given.iter().cloned().eq(members.take(self.given.len())), "in order");
    }
}

/// What became of one list of calls: the openings there are, and how often something came out.
#[derive(Default)]
struct Became {
    openings: [Option<Opening>; 4],
    handed: u64,
    ended: usize,
    returned: usize,
}

impl Became {
    fn of(&mut self, caller: usize) -> &mut Opening {
        self.openings[caller].as_mut().expect("open")
    }

    /// Behind a call that was not refused.
    fn after(&mut self, lists: &mut Lists, call: Call, said: Said) {
        match (call, said) {
            (Call::Open(k, file), _) => self.openings[k] = Some(Opening { file, ..Opening::default() }),
            (Call::Close(k), _) => self.openings[k] = None,
            (Call::Ask(k), _) => self.of(k).asks(),
            (Call::Set(k, name), _) => {
                let last = self.of(k).last.clone();
                self.of(k).marks.insert(name, last);
            }
            (Call::Forget(k, name), _) => drop(self.of(k).marks.remove(&name).expect("known")),
            (Call::Return(k, name), _) => {
                self.of(k).returns(&name);
                self.returned += 1;
            }
            (Call::Serve(_), said) => self.after_serve(lists, said),
        }
        let waiting = self.openings.iter().flatten().all(|opening| opening.waits.is_none_or(|waits| waits < 4));
        assert!(waiting, "somebody waits");
    }

    /// A caller's count is the number of schedules that it received since it opened; a closed record has none.
    fn counted(&self, shared: &Shared) {
        for (record, opening) in shared.records.iter().zip(&self.openings) {
            assert_eq!(record.count, opening.as_ref().map_or(0, |opening| opening.received), "counted");
        }
    }

    fn after_serve(&mut self, lists: &mut Lists, said: Said) {
        self.openings.iter_mut().flatten().flat_map(|opening| &mut opening.waits).for_each(|waits| *waits += 1);
        match said {
            Said::Schedule(k, schedule) => {
                self.handed += 1;
                self.of(k as usize).served(lists, Some(schedule));
            }
            Said::NoMore(k) => {
                self.ended += 1;
                self.of(k as usize).served(lists, None);
            }
            Said::Idle | Said::Done => {}
        }
    }
}

/// From four fresh records: served by the fourth serve at the latest; the list in order, each member once, and no more exactly at the
/// end, after a return what the list holds behind the mark; and its count is the number of schedules that it received since it opened.
#[test]
fn claims_of_every_list_of_calls() {
    let (mut handed, mut ended, mut returned) = (0, 0, 0);
    for seed in 0..share::of(30) {
        let mut random = Random::new(0x6a00 + seed as u64);
        let files = files(&mut random);
        let (mut lists, mut shared, mut became) = (Lists::default(), Shared::fresh(), Became::default());
        for _ in 0..2_000 {
            let call = call(&mut random, &files);
            if let Ok(said) = held(&mut random, &mut lists, &mut shared, &call) {
                became.after(&mut lists, call, said);
            }
            became.counted(&shared);
        }
        (handed, ended, returned) = (handed + became.handed, ended + became.ended, returned + became.returned);
    }
    println!("{handed} schedules handed, {ended} times no more, {returned} returns");
    assert!(!share::whole() || (handed > 3_000 && ended > 1_000 && returned > 500));
}

/// What a serve gave caller 1: a schedule, or no more; nothing where it did not take it.
fn given_to_1(said: Result<Said, Refusal>) -> Option<Option<Vec<u8>>> {
    match said {
        Ok(Said::Schedule(1, schedule)) => Some(Some(schedule)),
        Ok(Said::NoMore(1)) => Some(None),
        _ => None,
    }
}

/// Caller 1's own calls.
fn is_own(call: &Call) -> bool {
    matches!(call, Call::Open(1, _) | Call::Ask(1) | Call::Close(1) | Call::Set(1, _) | Call::Return(1, _) | Call::Forget(1, _))
}

/// A call of somebody else, no serve.
fn of_others(random: &mut Random, files: &[Vec<u8>]) -> Call {
    let calls = std::iter::repeat_with(|| call(random, files));
    calls.into_iter().find(|call| !is_own(call) && !matches!(call, Call::Serve(_))).expect("there are some")
}

/// Two lists of calls that agree in caller 1's own calls and in the serves that take it, in the same order among themselves: what the
/// others open, ask, mark or close changes neither its count nor the sequence that it receives.
#[test]
fn others_change_nothing() {
    let mut compared = 0;
    for seed in 0..share::of(60) {
        let mut random = Random::new(0x6d00 + seed as u64);
        let files = files(&mut random);
        let (mut lists, mut left, mut right) = (Lists::default(), Shared::fresh(), Shared::fresh());
        // caller 1's own calls, and nothing for a serve that takes it
        let (mut concerns, mut received, mut again) = (Vec::new(), Vec::new(), Vec::new());
        for _ in 0..600 {
            let call = call(&mut random, &files);
            if let Some(given) = given_to_1(held(&mut random, &mut lists, &mut left, &call)) {
                concerns.push(None);
                received.push(given);
            }
            concerns.extend(is_own(&call).then_some(Some(call)));
        }
        for concern in concerns {
            for _ in 0..random.below(4) {
                let other = of_others(&mut random, &files);
                let _ = held(&mut random, &mut lists, &mut right, &other);
            }
            let Some(call) = concern else {
                let mut serves = (0..4).map(|_| given_to_1(held(&mut random, &mut lists, &mut right, &Call::Serve(24))));
                again.push(serves.find_map(|given| given).expect("the fourth serve at the latest"));
                continue;
            };
            let _ = held(&mut random, &mut lists, &mut right, &call);
        }
        assert_eq!(received, again);
        assert_eq!(left.records[1], right.records[1], "its count, and all else in its record");
        compared += received.len();
    }
    println!("{compared} received in two lists each");
    assert!(!share::whole() || compared > 500, "{compared}");
}
