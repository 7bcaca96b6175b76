//! Covering across memory models: the library and the oracle agree on random pairs, damaged files and bytes that name no model, with outputs and
//! scratches of every kind; and what is known of the two models holds.
use std::collections::BTreeMap;
use tarczolin_tests::calls::across::{covers_models, robust, Under, SC, TSO};
use tarczolin_tests::calls::{self, Answer};
use tarczolin_tests::files::{lines, text};
use tarczolin_tests::lent::held_across;
use tarczolin_tests::oracle::across::call;
use tarczolin_tests::oracle::covers::Covers;
use tarczolin_tests::oracle::decode::decode;
use tarczolin_tests::random::ends::buffering;
use tarczolin_tests::random::program::{frames_parted, Size, SMALL};
use tarczolin_tests::random::{damage, Random};
use tarczolin_tests::share;

/// Sizes at which every full schedule of two programs can be walked under either model.
const SIZES: [Size; 4] = [
    Size { threads: 2, instructions: 4, accesses: 6, locations: 2, ..SMALL },
    Size { threads: 2, instructions: 6, accesses: 6, locations: 1, ..SMALL },
    Size { threads: 3, instructions: 3, accesses: 6, locations: 2, constants: 2, ..SMALL },
    Size { threads: 4, instructions: 2, accesses: 5, locations: 2, constants: 2, ..SMALL },
];

/// Lists that take more steps to walk are passed over.
const STEPS: u64 = 20_000;
const WORDS: [usize; 6] = [0, 1, 20, 21, 64, 1_000];
/// The pairs of models, first that of the first program.
const MODELS: [[u8; 2]; 4] = [[SC, SC], [SC, TSO], [TSO, SC], [TSO, TSO]];

/// Dekker's way into a critical section, with a mark of who was inside: both are, on x86 alone.
const DEKKER: &str =
    "01 10000000000001 110001 2200000000000001 1201020000000001 01 10010000000001 110000 2200000000000001 1201020000000001";
/// Both loads pass the stores: another graph, and no other outcome.
const PAIR: &str = "01 10000000000001 110001 01 10010000000001 110000";

/// A random program, or one that is likely to tell the models apart.
fn program(random: &mut Random, size: Size) -> Vec<u8> {
    if random.one_in(4) {
        return buffering(random);
    }
    text(&frames_parted(random, size))
}

/// What the library says of two files under two models.
fn said(models: [u8; 2], files: [&[u8]; 2], words: usize) -> (calls::Covers, Vec<u8>) {
    let mut out = vec![0; 48];
    let [one, other] = [0, 1].map(|k| Under { model: models[k], file: files[k] });
    let answer = covers_models(one, other, &mut out, &mut vec![0x77; words]);
    out.truncate(if let calls::Covers::Lacking(length) = answer { length as usize } else { 0 });
    (answer, out)
}

/// With scratches of every length, and a long one where that is wanted. Says what was found.
fn held(random: &mut Random, models: [u8; 2], files: [&[u8]; 2], output: usize, long: bool) -> Option<Covers> {
    let found = call((models[0], files[0]), (models[1], files[1]), output, STEPS)?;
    for words in WORDS.into_iter().chain(long.then_some(1_000_000)) {
        held_across(random, models, files, output, words, &found);
    }
    Some(found)
}

/// How often each answer came under each pair of models.
#[derive(Debug, Default)]
struct Seen {
    covered: BTreeMap<[u8; 2], usize>,
    lacking: BTreeMap<[u8; 2], usize>,
    /// A program of which total store order adds an outcome.
    added: usize,
}

#[test]
fn random_pairs() {
    let mut random = Random::new(0x6163_726f);
    let mut seen = Seen::default();
    for k in 0..share::of(4_000) {
        let size = SIZES[k % SIZES.len()];
        let one = program(&mut random, size);
        let other = if k % 2 == 0 { one.clone() } else { program(&mut random, size) };
        let models = MODELS[k / 2 % 4];
        let output = if random.one_in(8) { random.below(48) } else { random.between(48, 60) };
        match held(&mut random, models, [&one, &other], output, k % 100 == 0) {
            Some(Covers::Covered) => *seen.covered.entry(models).or_default() += 1,
            Some(Covers::Lacking(_)) => {
                *seen.lacking.entry(models).or_default() += 1;
                seen.added += (one == other) as usize;
            }
            _ => {}
        }
    }
    let enough = |all: &BTreeMap<[u8; 2], usize>| MODELS.iter().all(|models| all.get(models).is_some_and(|times| *times > 100));
    assert!(!share::whole() || (enough(&seen.covered) && enough(&seen.lacking) && seen.added > 50), "{seen:?}");
}

/// Sequential consistency adds nothing to total store order, a robust program ends the same way under both, and under sequential consistency
/// alone the answer is that of the call over two files.
#[test]
fn what_is_known_of_the_models() {
    let mut random = Random::new(0x6b6e_6f77);
    let (mut robust_ones, mut added) = (0, 0);
    for k in 0..share::of(3_000) {
        let size = SIZES[k % SIZES.len()];
        let [one, other] = [(); 2].map(|()| program(&mut random, size));
        let words = random.pick(&WORDS);
        assert_eq!(said([TSO, SC], [&one, &one], words).0, calls::Covers::Covered, "{}", one.escape_ascii());
        for model in [SC, TSO] {
            assert_eq!(said([model, model], [&one, &one], words).0, calls::Covers::Covered, "{}", one.escape_ascii());
        }
        let adds = said([SC, TSO], [&one, &one], words).0 != calls::Covers::Covered;
        let is_robust = robust(&one, &mut [0; 48]) == Answer::None;
        assert!(!(adds && is_robust), "{}", one.escape_ascii());
        robust_ones += is_robust as usize;
        added += adds as usize;
        let mut out = [0; 24];
        let answer = calls::covers(&one, &other, &mut out);
        let length = if let calls::Covers::Lacking(length) = answer { length as usize } else { 0 };
        assert_eq!(said([SC, SC], [&one, &other], words), (answer, out[..length].to_vec()), "{}", one.escape_ascii());
    }
    assert!(!share::whole() || (robust_ones > 1_000 && added > 50), "{robust_ones} robust, {added} with an outcome added");
}

#[test]
fn known_programs() {
    let mut random = Random::new(7);
    let [dekker, pair] = [DEKKER, PAIR].map(lines);
    // x86 lets both in: the second schedule is one of moves, and the other direction is covered
    let found = held(&mut random, [SC, TSO], [&dekker, &dekker], 48, true);
    let Some(Covers::Lacking(schedule)) = &found else { panic!("{found:?}") };
    assert!(schedule.iter().any(|byte| *byte >= 0x10), "{schedule:02x?}");
    assert_eq!(held(&mut random, [TSO, SC], [&dekker, &dekker], 48, true), Some(Covers::Covered));
    // the pair is not robust, and no outcome is added
    assert_eq!(robust(&pair, &mut [0; 48]), Answer::Answered(6));
    assert_eq!(held(&mut random, [SC, TSO], [&pair, &pair], 48, true), Some(Covers::Covered));
    // two models of two different programs
    assert!(matches!(held(&mut random, [TSO, SC], [&pair, &dekker], 48, false), Some(Covers::Lacking(_))));
    // no file, no thread: both end as they begin
    for models in MODELS {
        assert_eq!(held(&mut random, models, [b"", b"01\n"], 48, false), Some(Covers::Covered));
    }
}

#[test]
fn refusals_in_order() {
    let mut random = Random::new(0x7265_6675);
    let loads = |n: usize| "110000 ".repeat(n);
    let many = lines(&format!("01 {} 01 {}", loads(9), loads(8)));
    let (pair, bad) = (lines(PAIR), b"ff\n".to_vec());
    let files = [&many, &pair, &bad];
    let mut numbers: BTreeMap<(u8, u64), usize> = BTreeMap::new();
    for models in [[SC, SC], [SC, TSO], [TSO, SC], [TSO, TSO], [2, SC], [SC, 2], [2, 3], [TSO, 255], [255, TSO]] {
        for (first, second) in files.iter().flat_map(|first| files.map(|second| (*first, second))) {
            // both lists are walked where 17 loads are no refusal: that is one schedule
            for output in [0, 24, 47, 48] {
                let found = held(&mut random, models, [first, second], output, false).expect("short lists");
                if let Covers::First(refusal) | Covers::Second(refusal) = found {
                    *numbers.entry((refusal.number, refusal.place)).or_default() += 1;
                }
            }
        }
    }
    let known: Vec<(u8, u64)> = numbers.into_keys().collect();
    assert_eq!(known, [(3, 1), (41, 0), (49, 0), (49, 1)]);
}

#[test]
fn damaged_files_in_either_place() {
    let mut random = Random::new(0x6461_6d61);
    let mut refused = [0; 2];
    for k in 0..share::of(1_500) {
        let damage = random.pick(&damage::ALL);
        let bad = damage::file(&mut random, damage);
        if decode(&bad).is_ok() {
            continue;
        }
        let good = text(&frames_parted(&mut random, SIZES[0]));
        let output = random.below(60);
        let models = if random.one_in(10) { [random.byte(), random.byte()] } else { MODELS[k % 4] };
        for files in [[bad.as_slice(), &good], [&good, &bad], [&bad, &bad]] {
            match held(&mut random, models, files, output, false) {
                Some(Covers::First(_)) => refused[0] += 1,
                Some(Covers::Second(_)) => refused[1] += 1,
                other => panic!("{other:?}"),
            }
        }
    }
    assert!(!share::whole() || refused.iter().all(|times| *times > 200), "{refused:?}");
}

/// Lists that nobody walks: counters of six threads under sequential consistency, and of four threads under total store order.
#[test]
fn beyond_every_walk() {
    let adds = |threads: usize, times: usize| lines(&format!("01 {}", "1200000000000001 ".repeat(times)).repeat(threads));
    let words = 2 << 20;
    assert_eq!(said([SC, SC], [&adds(6, 4), &adds(6, 4)], words).0, calls::Covers::Covered);
    assert_eq!(said([SC, SC], [&adds(6, 4), &adds(6, 3)], words).0, calls::Covers::Lacking(18));
    assert_eq!(said([TSO, SC], [&adds(4, 4), &adds(2, 8)], words).0, calls::Covers::Covered);
    assert_eq!(said([SC, TSO], [&adds(6, 4), &adds(4, 4)], words).0, calls::Covers::Lacking(16));
    assert_eq!(said([TSO, TSO], [&adds(4, 4), &adds(4, 4)], words).0, calls::Covers::Covered);
}
