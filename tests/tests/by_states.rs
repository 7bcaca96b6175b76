//! Count and violation by states: the answers are those of the walk and of the brute-force lister, whatever the scratch's length and content;
//! an answer leaves zeros in it, a refusal leaves it as it was, and the words around it stay.
use tarczolin_tests::calls::{self, tso, Answer, SCHEDULE};
use tarczolin_tests::files::{lines, text};
use tarczolin_tests::lent::shown;
use tarczolin_tests::oracle::calls::Found;
use tarczolin_tests::oracle::decode::decode;
use tarczolin_tests::oracle::listing;
use tarczolin_tests::oracle::tso::calls::accepted;
use tarczolin_tests::oracle::tso::listing::list_within;
use tarczolin_tests::oracle::{refused, Refusal};
use tarczolin_tests::papers;
use tarczolin_tests::parts;
use tarczolin_tests::random::program::{frames_parted, straight, Size, ANY, SMALL};
use tarczolin_tests::random::{damage, Random};
use tarczolin_tests::scratch::{Scratch, LONG, SHORT};
use tarczolin_tests::search::states::{Sc, States, Table, Tso};
use tarczolin_tests::search::walk::orders;
use tarczolin_tests::share;

/// The calls of a memory model: by the walk and by states.
struct Under {
    schedule: usize,
    count: fn(&[u8], &mut u64, &mut u64) -> Answer,
    violation: fn(&[u8], &mut [u8]) -> Answer,
    count_with: fn(&[u8], &mut u64, &mut u64, &mut [u64]) -> Answer,
    violation_with: fn(&[u8], &mut [u8], &mut [u64]) -> Answer,
}

const UNDER_SC: Under = Under {
    schedule: SCHEDULE,
    count: calls::count,
    violation: calls::violation,
    count_with: calls::count_with,
    violation_with: calls::violation_with,
};

const UNDER_TSO: Under = Under {
    schedule: tso::SCHEDULE,
    count: tso::count,
    violation: tso::violation,
    count_with: tso::count_with,
    violation_with: tso::violation_with,
};

/// Scratches of every length that has something about it: none, too short for any key, just long enough for one, and longer ones.
struct Scratches {
    short: Vec<Scratch>,
    long: Scratch,
}

impl Scratches {
    fn new(random: &mut Random) -> Scratches {
        let short = SHORT.map(|words| Scratch::new(random, words));
        Scratches { short: short.into(), long: Scratch::new(random, LONG) }
    }

    /// Both calls with all short ones, and with the long one where that is wanted.
    fn hold(&mut self, under: &Under, random: &mut Random, file: &[u8], found: &Result<Asked, Refusal>, long: bool) {
        let longest = long.then_some(&mut self.long);
        for scratch in self.short.iter_mut().chain(longest) {
            hold_count(under, random, scratch, file, found);
            hold_violation(under, random, scratch, file, found);
        }
    }
}

/// What is right of a program: the counts, and the first that fails.
struct Asked {
    counts: (u64, u64),
    first: Option<Vec<u8>>,
}

fn hold_count(under: &Under, random: &mut Random, scratch: &mut Scratch, file: &[u8], found: &Result<Asked, Refusal>) {
    let before = (random.word(), random.word());
    let (mut listed, mut failing) = before;
    let (wanted, counts) = match found {
        Ok(asked) => (Answer::Answered(0), asked.counts),
        Err(refusal) => (Answer::Refused(refusal.number, refusal.place), before),
    };
    scratch.held(wanted, |scratch| (under.count_with)(file, &mut listed, &mut failing, scratch), file);
    assert_eq!((listed, failing), counts, "{}", file.escape_ascii());
}

fn hold_violation(under: &Under, random: &mut Random, scratch: &mut Scratch, file: &[u8], found: &Result<Asked, Refusal>) {
    let output = if random.one_in(4) { random.below(2 * under.schedule) } else { under.schedule };
    let found: Found = match found {
        Err(refusal) => Err(*refusal),
        Ok(_) if output < under.schedule => refused(22, 0),
        Ok(asked) => Ok(asked.first.clone()),
    };
    let (wanted, front) = shown(&found);
    let before: Vec<u8> = (0..output + 16).map(|_| random.byte()).collect();
    let mut later = before.clone();
    scratch.held(wanted, |scratch| (under.violation_with)(file, &mut later[8..8 + output], scratch), file);
    let kept = later[..8] == before[..8] && later[8 + front.len()..] == before[8 + front.len()..];
    assert!(kept && later[8..8 + front.len()] == *front, "the output of {output} bytes: {}", file.escape_ascii());
}

/// What the walk says, and where there is one what the brute-force lister says too.
fn asked(under: &Under, file: &[u8], list: Option<Vec<listing::Listed>>) -> Asked {
    let (mut listed, mut failing, mut out) = (0, 0, vec![0; under.schedule]);
    assert_eq!((under.count)(file, &mut listed, &mut failing), Answer::Answered(0));
    let first = match (under.violation)(file, &mut out) {
        Answer::Answered(length) => Some(out[..length as usize].to_vec()),
        Answer::None => None,
        other => panic!("{other:?}"),
    };
    if let Some(list) = list {
        assert_eq!(((listed, failing), &first), (listing::count(&list), &listing::violation(&list)), "{}", file.escape_ascii());
    }
    Asked { counts: (listed, failing), first }
}

/// Sizes that a walk over the list takes no time for.
const SIZES: [Size; 6] = [
    SMALL,
    Size { threads: 2, instructions: 10, accesses: 10, registers: 4, ..SMALL },
    Size { threads: 6, instructions: 2, accesses: 6, ..SMALL },
    Size { threads: 4, instructions: 6, accesses: 10, locations: 3, ..SMALL },
    Size { threads: 3, instructions: 5, accesses: 8, constants: 0, ..SMALL },
    Size { threads: 4, instructions: 8, accesses: 13, registers: 3, ..SMALL },
];

#[test]
fn random_programs() {
    let mut random = Random::new(91);
    let mut scratches = Scratches::new(&mut random);
    let (mut alike, mut failing, mut long, mut lengthened) = (0, 0, 0, 0);
    for k in 0..share::of(20_000) {
        let file = text(&frames_parted(&mut random, SIZES[k % SIZES.len()]));
        let program = decode(&file).expect("accepted");
        let orders = orders(&program);
        let asked_of = asked(&UNDER_SC, &file, (orders <= 500).then(|| listing::list(&program)));
        alike += !program.alike.is_empty() as usize;
        failing += asked_of.first.is_some() as usize;
        long += (asked_of.counts.0 > 20) as usize;
        let counts = asked_of.counts;
        scratches.hold(&UNDER_SC, &mut random, &file, &Ok(asked_of), k % 40 == 0);
        // the same list by more accesses, since few are counted without keys
        let longer = parts::lengthened(&file);
        if k % 2 == 0 && decode(&longer).is_ok() {
            let asked = asked(&UNDER_SC, &longer, None);
            assert_eq!(asked.counts, counts, "{}", longer.escape_ascii());
            scratches.hold(&UNDER_SC, &mut random, &longer, &Ok(asked), k % 40 == 0);
            lengthened += 1;
        }
    }
    let said = format!("{alike} alike, {failing} fail, {long} long, {lengthened} lengthened");
    assert!(!share::whole() || (alike > 6_000 && failing > 3_000 && long > 100 && lengthened > 8_000), "{said}");
}

/// Programs of many accesses, whose lists nobody walks: beside plain Rust by states.
#[test]
fn large_programs() {
    let (mut random, mut table, mut scratch) = (Random::new(92), Table::new(1 << 14), vec![0; 1 << 18]);
    let mut compared = 0;
    for k in 0..share::of(150) {
        let size = Size { threads: 2 + k % 5, accesses: 18, locations: 1 + k % 3, registers: 2, constants: 3, ..ANY };
        let file = text(&if k % 3 == 0 { straight(&mut random, 2) } else { frames_parted(&mut random, size) });
        let program = decode(&file).expect("accepted");
        let mut states = States::new(Sc::new(&program));
        let Some(numbers) = states.count_within(&mut table, 300_000) else { continue };
        let (mut listed, mut failing) = (0, 0);
        assert_eq!(calls::count_with(&file, &mut listed, &mut failing, &mut scratch), Answer::Answered(0));
        assert_eq!((listed, failing), (numbers.listed, numbers.failing), "{}", file.escape_ascii());
        compared += 1;
    }
    assert!(!share::whole() || compared > 100, "{compared}");
}

#[test]
fn refused_files() {
    let mut random = Random::new(93);
    let mut scratches = Scratches::new(&mut random);
    let mut refused = 0;
    for k in 0..share::of(1_500) {
        let damage = random.pick(&damage::ALL);
        let file = damage::file(&mut random, damage);
        if let Err(refusal) = decode(&file) {
            refused += 1;
            scratches.hold(&UNDER_SC, &mut random, &file, &Err(refusal), k % 100 == 0);
        }
    }
    assert!(!share::whole() || refused > 500, "{refused}");
}

#[test]
fn papers_by_states() {
    let mut random = Random::new(94);
    let mut scratches = [1_000, 1_000_000].map(|words| Scratch::new(&mut random, words));
    for paper in papers::all() {
        let found = Ok(Asked { counts: (paper.listed, paper.failing), first: None });
        scratches.iter_mut().for_each(|scratch| hold_count(&UNDER_SC, &mut random, scratch, &paper.file, &found));
    }
}

/// Programs that show a part of the key left out, with room for every state.
#[test]
fn each_part_of_the_key() {
    let mut random = Random::new(95);
    let mut scratch = Scratch::new(&mut random, 100_000);
    for (_, words, counts) in parts::SC {
        let file = parts::lengthened(&lines(words));
        assert_eq!(asked(&UNDER_SC, &file, None).counts, counts, "{words}");
        hold_count(&UNDER_SC, &mut random, &mut scratch, &file, &Ok(Asked { counts, first: None }));
    }
    for (_, words, counts) in parts::TSO {
        hold_count(&UNDER_TSO, &mut random, &mut scratch, &lines(words), &Ok(Asked { counts, first: None }));
    }
}

/// Sizes under total store order: moves beside accesses make lists longer.
const TSO_SIZES: [Size; 4] = [
    SMALL,
    Size { threads: 2, instructions: 6, accesses: 8, registers: 4, ..SMALL },
    Size { threads: 4, instructions: 2, accesses: 6, ..SMALL },
    Size { threads: 3, instructions: 4, accesses: 8, locations: 2, ..SMALL },
];

#[test]
fn random_programs_under_tso() {
    let mut random = Random::new(96);
    let mut scratches = Scratches::new(&mut random);
    let (mut alike, mut failing, mut long, mut listed) = (0, 0, 0, 0);
    for k in 0..share::of(20_000) {
        let file = text(&frames_parted(&mut random, TSO_SIZES[k % TSO_SIZES.len()]));
        let program = decode(&file).expect("accepted");
        let list = list_within(&program, 20_000);
        listed += list.is_some() as usize;
        let asked = asked(&UNDER_TSO, &file, list);
        alike += !program.alike.is_empty() as usize;
        failing += asked.first.is_some() as usize;
        long += (asked.counts.0 > 20) as usize;
        scratches.hold(&UNDER_TSO, &mut random, &file, &Ok(asked), k % 40 == 0);
    }
    let enough = alike > 6_000 && failing > 2_500 && long > 20 && listed > 15_000;
    assert!(!share::whole() || enough, "{alike} alike, {failing} fail, {long} long, {listed} listed by brute force");
}

/// Programs of up to 16 accesses, beside plain Rust by states.
#[test]
fn large_programs_under_tso() {
    let (mut random, mut table, mut scratch) = (Random::new(97), Table::new(1 << 14), vec![0; 1 << 19]);
    let mut compared = 0;
    for k in 0..share::of(150) {
        let size = Size { threads: 2 + k % 5, accesses: 14, locations: 1 + k % 3, registers: 2, constants: 3, ..ANY };
        let file = text(&frames_parted(&mut random, size));
        let program = decode(&file).expect("accepted");
        let mut states = States::new(Tso::new(&program));
        let Some(numbers) = states.count_within(&mut table, 300_000) else { continue };
        let (mut listed, mut failing) = (0, 0);
        assert_eq!(tso::count_with(&file, &mut listed, &mut failing, &mut scratch), Answer::Answered(0));
        assert_eq!((listed, failing), (numbers.listed, numbers.failing), "{}", file.escape_ascii());
        compared += 1;
    }
    assert!(!share::whole() || compared > 80, "{compared}");
}

#[test]
fn refused_files_under_tso() {
    let mut random = Random::new(98);
    let mut scratches = Scratches::new(&mut random);
    let mut refused = 0;
    for k in 0..share::of(500) {
        let damage = random.pick(&damage::ALL);
        let file = damage::file(&mut random, damage);
        if let Err(refusal) = accepted(&file) {
            refused += 1;
            scratches.hold(&UNDER_TSO, &mut random, &file, &Err(refusal), k % 100 == 0);
        }
    }
    let many = lines(&format!("01 {} 01 {}", "110000 ".repeat(9), "110000 ".repeat(8)));
    scratches.hold(&UNDER_TSO, &mut random, &many, &Err(Refusal { number: 41, place: 0 }), true);
    assert!(!share::whole() || refused > 150, "{refused}");
}

/// Lists that nobody walks: four threads of four fetch and adds, and a ring of four threads that store and load twice, with an assertion that holds.
#[test]
fn beyond_every_walk_under_tso() {
    let adds = format!("01 {}", "1200000000000001 ".repeat(4)).repeat(4);
    let mut scratch = vec![0x5a5a_5a5a_5a5a_5a5a; 2 << 20];
    let (mut listed, mut failing) = (0, 0);
    assert_eq!(tso::count_with(&lines(&adds), &mut listed, &mut failing, &mut scratch), Answer::Answered(0));
    assert_eq!((listed, failing), (63_063_000, 0));
    assert_eq!(tso::violation_with(&lines(&adds), &mut [0; tso::SCHEDULE], &mut scratch), Answer::None);
}

/// Lists that nobody walks: the longest that there can be, since 24 accesses of six threads have no more orders, and one with assertions.
#[test]
fn beyond_every_walk() {
    let adds = "1200000000000001 ".repeat(4);
    let sums = "01 110000 21000000000001 10000100000000 110100 2501007fffffff ";
    let mut scratch = vec![0x5a5a_5a5a_5a5a_5a5a; 2 << 20];
    for (words, numbers) in [(format!("01 {adds}").repeat(6), (3_246_670_537_110_000, 0)), (sums.repeat(6), (373_248_000, 0))] {
        let file = lines(&words);
        let (mut listed, mut failing) = (0, 0);
        assert_eq!(calls::count_with(&file, &mut listed, &mut failing, &mut scratch), Answer::Answered(0));
        assert_eq!((listed, failing), numbers, "{words}");
        assert_eq!(calls::violation_with(&file, &mut [0; SCHEDULE], &mut scratch), Answer::None, "{words}");
    }
}
