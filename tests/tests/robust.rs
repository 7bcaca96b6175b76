//! Robust programs: the library and the oracle agree, on known programs, random ones, damaged files and outputs of every length; and what is
//! promised beside the answer holds.
use std::collections::{BTreeMap, BTreeSet};
use tarczolin_tests::calls::across::robust;
use tarczolin_tests::calls::{self, tso, Answer};
use tarczolin_tests::files::{lines, text};
use tarczolin_tests::lent::held;
use tarczolin_tests::oracle::covers::outcomes;
use tarczolin_tests::oracle::decode::decode;
use tarczolin_tests::oracle::listing::Listed;
use tarczolin_tests::oracle::robust::{relaxed, robust_in};
use tarczolin_tests::oracle::tso::calls::accepted;
use tarczolin_tests::oracle::tso::listing::list_within;
use tarczolin_tests::oracle::tso::machine::run_full;
use tarczolin_tests::oracle::Refusal;
use tarczolin_tests::random::program::{frames_parted, Size, SMALL};
use tarczolin_tests::random::{damage, tso as random_tso, Random};
use tarczolin_tests::share;

/// The answer to a file whose list is known, held to the oracle's: answer, output and every other byte.
fn held_robust(random: &mut Random, file: &[u8], list: &[Listed], output: usize) {
    held(random, [file], output, &robust_in(list, file, output), |[file], out| robust(file, out));
}

fn known(words: &str, first: Option<&[u8]>) {
    let (file, mut random) = (lines(words), Random::new(0x50));
    let list = list_within(&decode(&file).unwrap(), u64::MAX).unwrap();
    assert_eq!(robust_in(&list, &file, 48), Ok(first.map(<[u8]>::to_vec)), "{words}");
    for output in [0, 24, 47, 48, 49, 600] {
        held_robust(&mut random, &file, &list, output);
    }
}

const PAIR: &str = "01 10000000000001 110001 01 10010000000001 110000";

#[test]
fn known_programs() {
    known("", None);
    known("01", None);
    // both loads pass the stores
    known(PAIR, Some(&[0, 0, 1, 1, 0x10, 0x11]));
    // message passing, and the pair with a fetch and add of zero, or a failed swap, between
    known("01 10000000000001 10010000000001 01 110001 110100", None);
    known("01 10000000000001 1201020000000000 110001 01 10010000000001 1201030000000000 110000", None);
    let swap = "13010200000000050000000006";
    known(&format!("01 10000000000001 {swap} 110001 01 10010000000001 {swap} 110000"), None);
    // one fence is not enough
    known("01 10000000000001 1201020000000000 110001 01 10010000000001 110000", Some(&[0, 1, 1, 0x10, 0, 0, 0x11]));
    // a thread alone sees its own store
    known("01 10000000000001 110000 110000", None);
    // alike threads: each loads what the other stores
    known("01 10000000000001 110001 10010000000001 01 10000000000001 110001 10010000000001 020001", None);
}

#[test]
fn refusals_in_order() {
    let mut random = Random::new(0x51);
    let loads = |n: usize| "110000 ".repeat(n);
    let many = lines(&format!("01 {} 01 {}", loads(9), loads(8)));
    for output in [0, 47, 48] {
        held(&mut random, [&many], output, &Err(Refusal { number: 41, place: 0 }), |[file], out| robust(file, out));
        held(&mut random, [b"ff\n"], output, &Err(Refusal { number: 3, place: 1 }), |[file], out| robust(file, out));
    }
    let mut numbers: BTreeMap<u8, usize> = BTreeMap::new();
    for _ in 0..share::of(20_000) {
        let damage = random.pick(&damage::ALL);
        let file = damage::file(&mut random, damage);
        // an accepted one may be too large to list
        let Err(refusal) = accepted(&file) else { continue };
        *numbers.entry(refusal.number).or_default() += 1;
        let output = random.below(96);
        held(&mut random, [&file], output, &Err(refusal), |[file], out| robust(file, out));
    }
    println!("{numbers:?}");
    assert!(!share::whole() || numbers.len() >= 8, "{numbers:?}");
}

/// Programs whose every full schedule can be walked.
const SIZES: [Size; 5] = [
    Size { threads: 2, instructions: 3, accesses: 6, locations: 2, ..SMALL },
    Size { threads: 3, instructions: 3, accesses: 6, locations: 2, ..SMALL },
    Size { threads: 2, instructions: 5, accesses: 7, ..SMALL },
    Size { threads: 4, instructions: 2, accesses: 6, locations: 3, ..SMALL },
    Size { threads: 3, instructions: 4, accesses: 7, locations: 3, ..SMALL },
];

/// Lists that take more steps to walk over are passed over.
const STEPS: u64 = 20_000;

#[test]
fn random_programs() {
    let mut random = Random::new(0x726f);
    let mut seen: BTreeMap<&str, usize> = BTreeMap::new();
    for k in 0..share::of(6_000) {
        let size = SIZES[k % SIZES.len()];
        let file = match k % 4 {
            0 => text(&frames_parted(&mut random, size)),
            1 => text(&random_tso::frames(&mut random, size)),
            _ => stores_and_loads(&mut random),
        };
        let program = accepted(&file).expect("at most 16 accesses");
        let Some(list) = list_within(&program, STEPS) else { continue };
        held_robust(&mut random, &file, &list, 48);
        held_robust(&mut random, &file, &list, random_length(k));
        let first = robust_in(&list, &file, 48).unwrap();
        *seen.entry(if first.is_some() { "relaxed" } else { "robust" }).or_default() += 1;
        by_calls(&file, &list);
        match first {
            // no smaller full schedule is relaxed, listed or not: one that is drawn at random
            Some(first) => {
                let drawn = random_tso::full(&mut random, &program);
                assert!(drawn >= first || !relaxed(&program, &drawn), "{} {drawn:02x?}", file.escape_ascii());
            }
            // the same outcomes under both models
            None => {
                let ends = |listed: &Listed| {
                    let machine = run_full(&program, &listed.schedule).unwrap();
                    (machine.memory, machine.fails())
                };
                assert_eq!(list.iter().map(ends).collect::<BTreeSet<_>>(), outcomes(&program), "{}", file.escape_ascii());
            }
        }
    }
    println!("{seen:?}");
    assert!(!share::whole() || (seen["relaxed"] > 200 && seen["robust"] > 1_000), "{seen:?}");
}

/// Two or three threads of stores and loads, some with a fetch and add of zero between: many are relaxed.
fn stores_and_loads(random: &mut Random) -> Vec<u8> {
    let mut words = Vec::new();
    let threads = random.between(2, 3);
    for _ in 0..threads {
        words.push("01".to_string());
        for _ in 0..random.between(1, 7 - 2 * (threads - 1)) {
            let l = random.below(2);
            words.push(match random.below(9) {
                0 => format!("12010{l}0000000000"),
                1..=4 => format!("100{l}000000000{}", random.between(1, 3)),
                _ => format!("11000{l}"),
            });
        }
    }
    lines(&words.join(" "))
}

fn random_length(k: usize) -> usize {
    [0, 24, 47, 64, 500][k % 5]
}

/// The text of a listed schedule's graph, by the graph call of total store order, is judged yes exactly where the graph is consistent.
fn by_calls(file: &[u8], list: &[Listed]) {
    let program = accepted(file).unwrap();
    for listed in list.iter().take(12) {
        let mut out = [0; calls::GRAPH];
        let Answer::Answered(length) = tso::graph(file, &listed.schedule, &mut out) else { panic!("a listed schedule is full") };
        let judged = calls::judge(file, &out[..length as usize], &mut [0; calls::SCHEDULE]);
        assert_eq!(
            judged == Answer::None,
            relaxed(&program, &listed.schedule),
            "{} {:02x?}",
            file.escape_ascii(),
            listed.schedule
        );
        assert!(matches!(judged, Answer::None | Answer::Answered(_)), "{judged:?}");
    }
}
