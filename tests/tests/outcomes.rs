//! The outcomes of a program: the library and the oracle agree on random programs, known ones and damaged files, under both models, from any row
//! on, with outputs of every small length and scratches of every kind; and what is promised beside the answer holds.
use std::collections::BTreeSet;
use std::time::{Duration, Instant};
use tarczolin_tests::calls::{self, tso, Answer};
use tarczolin_tests::files::{lines, text};
use tarczolin_tests::lent::held_outcomes;
use tarczolin_tests::oracle::decode::decode;
use tarczolin_tests::oracle::listing::Listed;
use tarczolin_tests::oracle::model::Model;
use tarczolin_tests::oracle::outcomes::{call_in, firsts, row, size};
use tarczolin_tests::oracle::Refusal;
use tarczolin_tests::random::ends::mixing;
use tarczolin_tests::random::program::{frames_parted, Size, SMALL};
use tarczolin_tests::random::{damage, Random};
use tarczolin_tests::scratch::{Scratch, LONG};
use tarczolin_tests::share;

/// Lengths of scratches: none, too short for any key, just long enough for one, and more.
const WORDS: [usize; 6] = [0, 1, 20, 21, 64, 1_000];

/// Sizes at which every full schedule can be walked; few locations and constants, so that outcomes meet.
const SIZES: [Size; 5] = [
    SMALL,
    Size { threads: 2, instructions: 6, accesses: 7, locations: 1, ..SMALL },
    Size { threads: 3, instructions: 3, accesses: 6, locations: 3, constants: 2, ..SMALL },
    Size { threads: 4, instructions: 2, accesses: 6, locations: 1, constants: 4, ..SMALL },
    Size { threads: 3, instructions: 4, accesses: 6, locations: 4, constants: 0, ..SMALL },
];

/// Lists under total store order that take more steps to walk are passed over.
const STEPS: u64 = 20_000;

/// Scratches of every length, filled with random words.
struct Scratches {
    short: Vec<Scratch>,
    long: Scratch,
}

impl Scratches {
    fn new(random: &mut Random) -> Scratches {
        let short = WORDS.map(|words| Scratch::new(random, words));
        Scratches { short: short.into(), long: Scratch::new(random, LONG) }
    }

    /// The rows from this number on with all short ones, and with the long one where that is wanted.
    fn hold(&mut self, random: &mut Random, asked: (Model, &[u8]), list: &[Listed], (from, output): (u64, usize), long: bool) {
        let found = call_in(asked.0, list, asked.1, from, output);
        let longest = long.then_some(&mut self.long);
        for scratch in self.short.iter_mut().chain(longest) {
            held_outcomes(random, scratch, asked, (from, output), &found);
        }
    }

    fn hold_refusal(&mut self, random: &mut Random, asked: (Model, &[u8]), at: (u64, usize), refusal: Refusal, long: bool) {
        let longest = long.then_some(&mut self.long);
        for scratch in self.short.iter_mut().chain(longest) {
            held_outcomes(random, scratch, asked, at, &Err(refusal));
        }
    }
}

/// What random programs must have had of everything.
#[derive(Debug, Default)]
struct Seen {
    programs: usize,
    alike: usize,
    /// More than one outcome, and fewer than listed schedules.
    meeting: usize,
    /// Two outcomes of one final memory, of which one fails.
    by_failure: usize,
}

impl Seen {
    fn add(&mut self, alike: bool, ends: &[([u32; 8], bool)], listed: usize) {
        self.programs += 1;
        self.alike += alike as usize;
        self.meeting += (ends.len() > 1 && ends.len() < listed) as usize;
        let memories: BTreeSet<_> = ends.iter().map(|(memory, _)| memory).collect();
        self.by_failure += (memories.len() < ends.len()) as usize;
    }
}

/// A random program of any kind, or one that has many outcomes.
fn program(random: &mut Random, k: usize) -> Vec<u8> {
    match k % 2 {
        0 => mixing(random),
        _ => text(&frames_parted(random, SIZES[k / 2 % SIZES.len()])),
    }
}

fn random_programs(model: Model, seed: u64, cases: usize) -> Seen {
    let mut random = Random::new(seed);
    let (mut scratches, mut seen) = (Scratches::new(&mut random), Seen::default());
    for k in 0..share::of(cases) {
        let file = program(&mut random, k);
        let program = decode(&file).expect("accepted");
        let Some(list) = model.list_within(&program, STEPS) else { continue };
        let firsts = firsts(model, &program, &list);
        let ends: Vec<_> = firsts.iter().map(|(outcome, _)| *outcome).collect();
        assert_eq!(ends.iter().copied().collect::<BTreeSet<_>>(), model.outcomes(&program), "as all full schedules end");
        seen.add(!program.alike.is_empty(), &ends, list.len());
        let rows = (firsts.len() + 2) * size(model);
        let from = random.below(firsts.len() + 2) as u64;
        let asked = (model, file.as_slice());
        scratches.hold(&mut random, asked, &list, (0, rows), k % 50 == 0);
        let output = random.below(rows + 5);
        scratches.hold(&mut random, asked, &list, (from, output), k % 250 == 0);
    }
    seen
}

#[test]
fn random_programs_under_sc() {
    let seen = random_programs(Model::Sc, 0x6f75_7463, 5_000);
    let enough = seen.alike > 1_200 && seen.meeting > 1_000 && seen.by_failure > 200;
    assert!(!share::whole() || enough, "{seen:?}");
}

#[test]
fn random_programs_under_tso() {
    let seen = random_programs(Model::Tso, 0x6f75_7464, 4_000);
    let enough = seen.programs > 2_000 && seen.alike > 600 && seen.meeting > 500 && seen.by_failure > 100;
    assert!(!share::whole() || enough, "{seen:?}");
}

/// All rows by one call.
fn whole(model: Model, file: &[u8], scratch: &mut [u64]) -> Vec<u8> {
    let call = if model == Model::Sc { calls::outcomes } else { tso::outcomes };
    let mut out = vec![0; 5_000 * size(model)];
    match call(file, 0, &mut out, scratch) {
        Answer::Answered(rows) if rows < 5_000 => out[..rows as usize * size(model)].to_vec(),
        other => panic!("{other:?}"),
    }
}

/// Pages of so many rows, one behind the other until there are no more.
fn by_pages(model: Model, file: &[u8], rows: usize, scratch: &mut [u64]) -> Vec<u8> {
    let call = if model == Model::Sc { calls::outcomes } else { tso::outcomes };
    let (mut all, mut from) = (Vec::new(), 0);
    loop {
        let mut out = vec![0; rows * size(model)];
        match call(file, from, &mut out, scratch) {
            Answer::Answered(0) => return all,
            Answer::Answered(written) => {
                all.extend(&out[..written as usize * size(model)]);
                from += written;
            }
            other => panic!("{other:?}"),
        }
    }
}

/// Threads that draw numbers and keep them at locations of their own: an outcome for each order in which they draw.
fn drawing(threads: usize) -> Vec<u8> {
    lines(&(0..threads).map(|t| format!("01 1200000000000001 10{:02x}0100000000 ", t + 1)).collect::<String>())
}

#[test]
fn pages_joined_are_the_whole() {
    let mut random = Random::new(0x7061_6765);
    let mut many = 0;
    for k in 0..share::of(300) {
        let model = Model::BOTH[k / 2 % 2];
        let file = if k == 0 { drawing(4) } else { program(&mut random, k) };
        let mut scratch = vec![random.word(); random.pick(&[0, 21, 1_000, 20_000])];
        let all = whole(model, &file, &mut scratch);
        many += (all.len() > 3 * size(model)) as usize;
        for rows in [1, 2, 3, 7] {
            assert_eq!(by_pages(model, &file, rows, &mut scratch), all, "{rows} rows a page: {}", file.escape_ascii());
        }
    }
    assert!(!share::whole() || many > 5, "{many}");
}

/// The first listed schedule with an outcome is the least of all full schedules that have it, and schedules ascend.
#[test]
fn the_least_of_all_full_schedules() {
    let mut random = Random::new(0x6c65_6173);
    for k in 0..share::of(600) {
        let file = program(&mut random, k);
        let program = decode(&file).expect("accepted");
        let mut met: Vec<([u32; 8], bool, Vec<u8>)> = Vec::new();
        let machine = tarczolin_tests::oracle::machine::Machine::new(&program);
        tarczolin_tests::oracle::machine::every_full(&machine, &mut Vec::new(), &mut |schedule, machine| {
            let (memory, fails) = (machine.memory, machine.fails());
            if !met.iter().any(|one| (one.0, one.1) == (memory, fails)) {
                met.push((memory, fails, schedule.to_vec()));
            }
            false
        });
        let rows = met.iter().map(|(memory, fails, schedule)| {
            let listed = Listed { schedule: schedule.clone(), fails: *fails };
            row(Model::Sc, &((*memory, *fails), &listed))
        });
        assert_eq!(whole(Model::Sc, &file, &mut [7; 600]), rows.flatten().collect::<Vec<u8>>(), "{}", file.escape_ascii());
    }
}

#[test]
fn outputs_of_every_small_length() {
    let mut random = Random::new(0x736d_616c);
    let mut scratches = Scratches::new(&mut random);
    let file = drawing(3);
    for model in Model::BOTH {
        let list = model.list_within(&decode(&file).unwrap(), u64::MAX).unwrap();
        for output in 0..=3 * size(model) {
            for from in [0, 2, 6, u64::MAX] {
                scratches.hold(&mut random, (model, &file), &list, (from, output), false);
            }
        }
    }
}

#[test]
fn refusals_in_order() {
    let mut random = Random::new(0x7265_6675);
    let mut scratches = Scratches::new(&mut random);
    let mut refused = [0; 2];
    for k in 0..share::of(1_200) {
        let model = Model::BOTH[k % 2];
        let damage = random.pick(&damage::ALL);
        let file = damage::file(&mut random, damage);
        if let Err(refusal) = model.accepted(&file) {
            refused[k % 2] += 1;
            let at = (random.below(3) as u64, random.below(200));
            scratches.hold_refusal(&mut random, (model, &file), at, refusal, k % 100 < 2);
        }
    }
    // 41 in front of 22, under total store order alone; there 22 alone refuses this file, and by no output at all
    let loads = |n: usize| "110000 ".repeat(n);
    let many = lines(&format!("01 {} 01 {}", loads(9), loads(8)));
    for output in [0, 57, 58, 81, 82] {
        let too_many = Refusal { number: 41, place: 0 };
        scratches.hold_refusal(&mut random, (Model::Tso, &many), (0, output), too_many, output == 0);
    }
    for (model, output) in [(Model::Sc, 0), (Model::Sc, 57), (Model::Tso, 58), (Model::Tso, 81)] {
        let short = Refusal { number: 22, place: 0 };
        scratches.hold_refusal(&mut random, (model, &drawing(2)), (0, output), short, true);
    }
    assert!(!share::whole() || refused.iter().all(|times| *times > 150), "{refused:?}");
}

/// The rows that the library gives, as values and schedules.
fn ends(model: Model, file: &[u8], words: usize) -> Vec<(Vec<u32>, bool)> {
    let rows = whole(model, file, &mut vec![0x5a5a_5a5a_5a5a_5a5a; words]);
    let values = |row: &[u8]| row[..32].chunks(4).map(|four| u32::from_be_bytes(four.try_into().unwrap())).collect();
    rows.chunks(size(model)).map(|row| (values(row), row[33] == 1)).collect()
}

/// Lists that nobody walks: the longest that there can be, six threads that lose updates, and under total store order 63,063,000 of four threads.
#[test]
fn beyond_every_walk() {
    let adds = |threads: usize| lines(&format!("01 {}", "1200000000000001 ".repeat(4)).repeat(threads));
    let sums = "01 110000 21000000000001 10000100000000 110100 2501007fffffff ";
    let cases = [
        (Model::Sc, adds(6), vec![24]),
        (Model::Sc, lines(&sums.repeat(6)), vec![1, 2, 3, 4, 5, 6]),
        (Model::Tso, adds(4), vec![16]),
    ];
    for (model, file, sums) in cases {
        let began = Instant::now();
        let mut found = ends(model, &file, 2 << 20);
        assert!(began.elapsed() < Duration::from_secs(20), "{model:?}: {:?}", began.elapsed());
        found.sort();
        let wanted: Vec<(Vec<u32>, bool)> = sums.iter().map(|sum| (vec![*sum, 0, 0, 0, 0, 0, 0, 0], false)).collect();
        assert_eq!(found, wanted, "{model:?}");
    }
}

/// More outcomes than have room in any batch: 720 orders in which six threads draw.
#[test]
fn many_outcomes() {
    for words in [1_000, 1 << 20] {
        let found = ends(Model::Sc, &drawing(6), words);
        assert_eq!(found.len(), 720);
        assert!(found.iter().all(|(values, fails)| values[0] == 6 && !fails));
        assert_eq!(found.iter().collect::<BTreeSet<_>>().len(), 720, "no outcome comes twice");
    }
}

/// A file without a thread has one outcome, of no steps, and what it starts with; a thread that fails at once has one, which fails.
#[test]
fn programs_without_accesses() {
    for model in Model::BOTH {
        assert_eq!(ends(model, b"", 0), [(vec![0; 8], false)]);
        assert_eq!(ends(model, &lines("030500000007"), 10), [(vec![0, 0, 0, 0, 0, 7, 0, 0], false)]);
        assert_eq!(ends(model, &lines("01 23000000000001"), 10), [(vec![0; 8], true)]);
    }
}
