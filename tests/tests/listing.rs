//! The calls of the list and a brute-force lister agree on random programs.
use std::collections::BTreeMap;
use tarczolin_tests::calls::{self, Answer, ROW};
use tarczolin_tests::files::text;
use tarczolin_tests::lent::{held, held_rows, shown};
use tarczolin_tests::oracle::calls::{Found, SCHEDULE};
use tarczolin_tests::oracle::decode::{decode, Program};
use tarczolin_tests::oracle::listing::{self, Listed};
use tarczolin_tests::oracle::machine::run_full;
use tarczolin_tests::oracle::{refused, Refusal};
use tarczolin_tests::random::program::{frames_parted, Size, SMALL};
use tarczolin_tests::random::{damage, schedule, Random};
use tarczolin_tests::search::Search;
use tarczolin_tests::share;

const PROGRAMS: usize = 23_000;
/// Lists up to this length are walked whole, of longer ones this many consecutive members.
const WALKED: usize = 60;

/// Sizes at which every full schedule can be walked.
const SIZES: [Size; 6] = [
    SMALL,
    Size { threads: 2, instructions: 8, accesses: 10, ..SMALL },
    Size { threads: 4, instructions: 4, accesses: 6, locations: 1, ..SMALL },
    Size { threads: 4, instructions: 3, accesses: 7, ..SMALL },
    Size { threads: 5, instructions: 3, accesses: 6, locations: 3, ..SMALL },
    Size { threads: 6, instructions: 2, accesses: 6, ..SMALL },
];

/// What the calls reached.
#[derive(Default)]
struct Seen {
    programs: usize,
    with_exchange: usize,
    /// Programs whose list is shorter than it would be without the `02` lines.
    shortened: usize,
    longest: usize,
    listed: u64,
    failing: u64,
    calls: usize,
    found: usize,
    no_more: usize,
    from_unlisted: usize,
    rows: usize,
    violations: [usize; 2],
    refused: BTreeMap<u8, usize>,
    /// Refusals among the lists of calls, before and after the first answer.
    in_lists: [usize; 2],
    after_no_more: usize,
}

/// A program with its list by brute force.
struct Case {
    file: Vec<u8>,
    program: Program,
    list: Vec<Listed>,
}

impl Case {
    /// A random program; every second one is drawn again up to ten times until its list is not short.
    fn draw(random: &mut Random, k: usize) -> Case {
        let mut left = if k.is_multiple_of(2) { 1 } else { 10 };
        loop {
            let file = text(&frames_parted(random, SIZES[k / 2 % SIZES.len()]));
            let program = decode(&file).unwrap();
            let list = listing::list(&program);
            left -= 1;
            if left == 0 || list.len() >= 6 {
                return Case { file, program, list };
            }
        }
    }

    fn listed(&self, schedule: &[u8]) -> bool {
        self.list.iter().any(|l| l.schedule == schedule)
    }

    /// What start and continue find, with an output of that length.
    fn next(&self, last: Option<&[u8]>, output: usize) -> Found {
        if output < SCHEDULE {
            return refused(22, 0);
        }
        let Some(schedule) = last else { return Ok(listing::start(&self.list)) };
        run_full(&self.program, schedule)?;
        Ok(listing::after(&self.list, schedule))
    }
}

impl Seen {
    fn note(&mut self, found: &Found) {
        self.calls += 1;
        match found {
            Ok(Some(_)) => self.found += 1,
            Ok(None) => self.no_more += 1,
            Err(refusal) => *self.refused.entry(refusal.number).or_default() += 1,
        }
    }

    /// A start, or a continue from this schedule.
    fn next(&mut self, random: &mut Random, case: &Case, last: Option<&[u8]>, output: usize) -> Found {
        let found = case.next(last, output);
        match last {
            None => held(random, [&case.file], output, &found, |[file], out| calls::start(file, out)),
            Some(schedule) => held(random, [&case.file, schedule], output, &found, |[file, schedule], out| {
                calls::continue_from(file, schedule, out)
            }),
        }
        self.note(&found);
        found
    }

    /// The list by start and continue, whole or a part of it, and the end.
    fn walk(&mut self, random: &mut Random, case: &Case) {
        let first = self.next(random, case, None, SCHEDULE).unwrap().expect("every program has a schedule");
        let members = case.list.len();
        let from = if members <= WALKED { 0 } else { random.below(members - WALKED) };
        let mut last = if from == 0 { first } else { case.list[from].schedule.clone() };
        for _ in 0..WALKED {
            let output = random.between(SCHEDULE, SCHEDULE + 6);
            match self.next(random, case, Some(&last), output).unwrap() {
                Some(next) => last = next,
                None => break,
            }
        }
        let end = &case.list[members - 1].schedule;
        assert_eq!(self.next(random, case, Some(end), SCHEDULE), Ok(None), "no more behind the last");
    }

    /// Continues from any full schedules, and from schedules that are refused.
    fn continues(&mut self, random: &mut Random, case: &Case) {
        for _ in 0..3 {
            let schedule = schedule::full(random, &case.program);
            self.from_unlisted += !case.listed(&schedule) as usize;
            let output = random.between(SCHEDULE - 1, SCHEDULE + 6);
            drop(self.next(random, case, Some(&schedule), output));
        }
        let kind = random.pick(&schedule::ALL);
        let schedule = schedule::schedule(random, &case.program, kind);
        let output = random.between(SCHEDULE - 4, SCHEDULE + 6);
        drop(self.next(random, case, Some(&schedule), output));
    }

    /// Demand 3's list of calls: each is a start until a schedule has been answered, then a continue from the last one.
    fn list_of_calls(&mut self, random: &mut Random, case: &Case) {
        let mut last: Option<Vec<u8>> = None;
        let mut answered = Vec::new();
        let mut ended = false;
        for _ in 0..random.between(1, 2 * case.list.len().min(12) + 4) {
            let output = if random.one_in(3) { random.below(SCHEDULE) } else { random.between(SCHEDULE, 40) };
            let found = self.next(random, case, last.as_deref(), output);
            self.after_no_more += ended as usize;
            match found {
                Ok(Some(schedule)) => {
                    answered.push(schedule.clone());
                    last = Some(schedule);
                }
                Ok(None) => ended = true,
                Err(refusal) => {
                    assert_eq!(refusal, Refusal { number: 22, place: 0 }, "the only refusal of a list of calls");
                    self.in_lists[last.is_some() as usize] += 1;
                }
            }
        }
        let begun: Vec<Vec<u8>> = case.list.iter().take(answered.len()).map(|l| l.schedule.clone()).collect();
        assert_eq!(answered, begun, "the answers are the list from its beginning");
        assert!(!ended || answered.len() == case.list.len(), "no more exactly behind the last");
    }

    /// Rows from the beginning in an output that is too short, just long enough or longer, and behind any full schedule.
    fn rows(&mut self, random: &mut Random, case: &Case) {
        let full = schedule::full(random, &case.program);
        for behind in [None, Some(full.as_slice())] {
            let output = random.below((case.list.len().min(WALKED) + 2) * ROW);
            let rows = listing::rows(&case.list, behind, output);
            self.rows += rows.len() / ROW;
            held_rows(random, &case.file, behind, output, &Ok(rows));
        }
    }

    fn violation(&mut self, random: &mut Random, case: &Case) {
        let output = random.between(SCHEDULE - 4, SCHEDULE + 6);
        let found = if output < SCHEDULE { refused(22, 0) } else { Ok(listing::violation(&case.list)) };
        held(random, [&case.file], output, &found, |[file], out| calls::violation(file, out));
        self.note(&found);
        if let Ok(found) = found {
            self.violations[found.is_some() as usize] += 1;
        }
    }
}

/// The count call is held to the oracle: the answer, the two words, the words around them, and the file.
fn count(random: &mut Random, file: &[u8], expected: Result<(u64, u64), Refusal>) {
    let lent = file.to_vec();
    let before: [u64; 4] = std::array::from_fn(|_| random.word());
    let mut words = before;
    let [_, listed, failing, _] = &mut words;
    let answer = calls::count(&lent, listed, failing);
    let told = file.escape_ascii();
    match expected {
        Ok((listed, failing)) => {
            assert_eq!(answer, Answer::Answered(0), "{told}");
            assert_eq!(words, [before[0], listed, failing, before[3]], "{told}");
        }
        Err(refusal) => {
            assert_eq!(answer, shown(&Err(refusal)).0, "{told}");
            assert_eq!(words, before, "a refusal changes nothing: {told}");
        }
    }
    assert!(lent == file);
}

#[test]
fn library_and_brute_force_agree() {
    let mut random = Random::new(31);
    let mut seen = Seen::default();
    for k in 0..share::of(PROGRAMS) {
        let case = Case::draw(&mut random, k);
        seen.walk(&mut random, &case);
        seen.continues(&mut random, &case);
        seen.list_of_calls(&mut random, &case);
        seen.rows(&mut random, &case);
        seen.violation(&mut random, &case);
        let counts = listing::count(&case.list);
        count(&mut random, &case.file, Ok(counts));
        if k % 2 == 0 {
            refused_file(&mut random, &mut seen, &case);
        }
        let exchange = listing::permitted(&case.program).len() > 1;
        seen.programs += 1;
        seen.with_exchange += exchange as usize;
        if exchange && k % 4 < 2 {
            let apart = Program { alike: vec![], ..case.program.clone() };
            seen.shortened += (Search::new(&apart).count().0 > counts.0) as usize;
        }
        seen.longest = seen.longest.max(case.list.len());
        seen.listed += counts.0;
        seen.failing += counts.1;
    }
    show(&seen);
    reached(&seen);
}

/// A damaged file, with a schedule of some program and outputs of any length: the program's refusals come first.
fn refused_file(random: &mut Random, seen: &mut Seen, case: &Case) {
    let file = loop {
        let damage = random.pick(&damage::ALL);
        let file = damage::file(random, damage);
        if decode(&file).is_err() {
            break file;
        }
    };
    let refusal = decode(&file).unwrap_err();
    let found = Err(refusal);
    let schedule = schedule::full(random, &case.program);
    let output = random.below(2 * SCHEDULE);
    held(random, [&file], output, &found, |[file], out| calls::start(file, out));
    held(random, [&file], output, &found, |[file], out| calls::violation(file, out));
    held(random, [&file, &schedule], output, &found, |[file, schedule], out| calls::continue_from(file, schedule, out));
    count(random, &file, Err(refusal));
    seen.note(&found);
}

fn show(seen: &Seen) {
    println!(
        "{} programs, {} listed, {} of these fail, the longest list {}",
        seen.programs, seen.listed, seen.failing, seen.longest
    );
    println!(
        "{} with threads to exchange; of a half counted also without, {} are shorter for it",
        seen.with_exchange, seen.shortened
    );
    println!(
        "{} calls: {} schedules, {} no more or none, refused by number {:?}",
        seen.calls, seen.found, seen.no_more, seen.refused
    );
    println!("{} continues from a full schedule that is not listed", seen.from_unlisted);
    println!(
        "22 in lists of calls before and after the first answer {:?}; calls after a no more {}",
        seen.in_lists, seen.after_no_more
    );
    println!("{} rows; violations: none and some {:?}", seen.rows, seen.violations);
}

fn reached(seen: &Seen) {
    if !share::whole() {
        return;
    }
    assert!(seen.programs >= 20_000 && seen.with_exchange >= 5_000 && seen.shortened >= 500 && seen.longest >= 200);
    assert!(seen.found >= 100_000 && seen.no_more >= 40_000 && seen.from_unlisted >= 10_000);
    assert!(seen.violations.iter().all(|n| *n >= 2_000) && seen.failing >= 10_000 && seen.rows >= 100_000);
    assert!(seen.in_lists.iter().all(|n| *n >= 5_000) && seen.after_no_more >= 10_000);
    for (number, least) in [(20, 2_000), (21, 1_000), (22, 20_000)] {
        assert!(seen.refused[&number] >= least, "refusal {number}");
    }
    assert!((1..=8).all(|number| seen.refused[&number] >= 30));
}
