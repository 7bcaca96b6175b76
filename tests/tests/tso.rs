//! Total store order: the library and the oracle agree on every call, for programs, damaged files and schedules, and outputs of every
//! length; what document 02 says by name holds.
use std::collections::BTreeMap;
use tarczolin_tests::calls::{tso, Answer};
use tarczolin_tests::files::{lines, text};
use tarczolin_tests::lent::{held, held_by, shown_rows};
use tarczolin_tests::oracle::calls::Found;
use tarczolin_tests::oracle::decode::decode;
use tarczolin_tests::oracle::listing::{class, count, Listed};
use tarczolin_tests::oracle::tso::calls::{self as oracle, accepted};
use tarczolin_tests::oracle::tso::listing::{list_within, rows, ROW};
use tarczolin_tests::oracle::tso::machine::run_full;
use tarczolin_tests::oracle::Refusal;
use tarczolin_tests::random::program::{frames_parted, Size, ANY, SMALL};
use tarczolin_tests::random::{damage, schedule, tso as random_tso, Random};
use tarczolin_tests::search::tso::Search;
use tarczolin_tests::share;

const PAIR: &str = "01 10000000000001 110001 01 10010000000001 110000";

/// The list of a file by start and continue, each answer held to the oracle's.
fn by_calls(random: &mut Random, file: &[u8], list: &[Listed]) {
    held(random, [file], 48, &oracle::start_in(list, file, 48), |[file], out| tso::start(file, out));
    for listed in list.iter().take(40) {
        let found = oracle::continue_in(list, file, &listed.schedule, 48);
        held(random, [file, &listed.schedule], 48, &found, |[file, last], out| tso::continue_from(file, last, out));
    }
    held(random, [file], 48, &oracle::violation_in(list, file, 48), |[file], out| tso::violation(file, out));
}

/// Rows behind a schedule, or from the first one on, in an output of so many bytes.
fn held_rows(random: &mut Random, file: &[u8], behind: Option<&[u8]>, output: usize, found: &Result<Vec<u8>, Refusal>) {
    match behind {
        None => held_by(random, [file], output, shown_rows(found, ROW), |[file], out| tso::rows(file, out)),
        Some(last) => {
            held_by(random, [file, last], output, shown_rows(found, ROW), |[file, last], out| tso::rows_after(file, last, out))
        }
    }
}

/// Count changes its two words when it answers, and neither when it refuses.
fn held_count(random: &mut Random, file: &[u8], found: Result<(u64, u64), Refusal>) {
    let before = (random.word(), random.word());
    let (mut listed, mut failing) = before;
    let answer = tso::count(file, &mut listed, &mut failing);
    match found {
        Ok(counts) => assert_eq!((answer, (listed, failing)), (Answer::Answered(0), counts), "{}", file.escape_ascii()),
        Err(r) => {
            assert_eq!((answer, (listed, failing)), (Answer::Refused(r.number, r.place), before), "{}", file.escape_ascii())
        }
    }
}

/// The graph and the class of a schedule that may be damaged.
fn held_schedule(random: &mut Random, file: &[u8], schedule: &[u8], output: usize) -> Found {
    let found = oracle::graph(file, schedule, output);
    held(random, [file, schedule], output, &found, |[file, schedule], out| tso::graph(file, schedule, out));
    let class = match oracle::class(file, schedule) {
        Ok(size) => Answer::Answered(size),
        Err(r) => Answer::Refused(r.number, r.place),
    };
    assert_eq!(tso::class(file, schedule), class, "{} {schedule:02x?}", file.escape_ascii());
    found
}

#[test]
fn the_store_and_load_pair() {
    let (file, mut random) = (lines(PAIR), Random::new(1));
    let list = list_within(&decode(&file).unwrap(), u64::MAX).unwrap();
    let steps: Vec<Vec<u8>> = list.iter().map(|listed| listed.schedule.clone()).collect();
    assert_eq!(steps.len(), 4);
    // neither load sees the other's store: both are pending still
    assert_eq!(steps[0], [0, 0, 1, 1, 0x10, 0x11]);
    by_calls(&mut random, &file, &list);
    held_count(&mut random, &file, Ok((4, 0)));
    let text = oracle::graph(&file, &steps[0], 512).unwrap().unwrap();
    assert_eq!(text, b"400001ffff\n400101ffff\n41000000\n41010100\n");
    held_schedule(&mut random, &file, &steps[0], 512).unwrap();
}

/// 41 counts the accesses in the file, comes right behind the program's refusals, and before 22.
#[test]
fn more_than_16_accesses() {
    let mut random = Random::new(2);
    let loads = |n: usize| "110000 ".repeat(n);
    let file = lines(&format!("01 23000000000001 {} 01 {}", loads(14), loads(3)));
    let refusal = Refusal { number: 41, place: 0 };
    for output in [0, 23, 47, 48, 600] {
        held(&mut random, [&file], output, &Err(refusal), |[file], out| tso::start(file, out));
        held(&mut random, [&file], output, &Err(refusal), |[file], out| tso::violation(file, out));
        held(&mut random, [&file, &[9]], output, &Err(refusal), |[file, last], out| tso::continue_from(file, last, out));
        held(&mut random, [&file, &[9]], output, &Err(refusal), |[file, last], out| tso::graph(file, last, out));
        held_rows(&mut random, &file, None, output, &Err(refusal));
        held_rows(&mut random, &file, Some(&[]), output, &Err(refusal));
    }
    held_count(&mut random, &file, Err(refusal));
    assert_eq!(tso::class(&file, &[9]), Answer::Refused(41, 0));
    // sixteen pass, and the program's own refusals come first
    assert_eq!(oracle::count(&lines(&format!("01 23000000000001 {} 01 {}", loads(14), loads(2)))), Ok((1, 1)));
    assert_eq!(tso::start(&lines(&format!("01 {} 110400", loads(15))), &mut []), Answer::Refused(4, 17));
}

/// 20 also covers a move from an empty queue, and a fetch and add or compare and swap whose queue isn't empty.
#[test]
fn steps_that_may_not_be() {
    let mut random = Random::new(3);
    let refused = |file: &str, schedule: &[u8], number, place| {
        let found = held_schedule(&mut random, &lines(file), schedule, 512);
        assert_eq!(found, Err(Refusal { number, place }), "{file} {schedule:02x?}");
    };
    let mut refused = refused;
    let add = "01 10000000000001 1200010000000001";
    refused(add, &[0, 0], 20, 1);
    refused(add, &[0x10], 20, 0);
    refused(add, &[0, 0x10, 0x10], 20, 2);
    refused(add, &[0, 0x10, 0, 0x10], 20, 3);
    refused(add, &[0, 0x11], 20, 1);
    refused(add, &[0, 0x10], 21, 2);
    // a failed swap needs the empty queue too, and so does adding zero
    refused("01 10000000000001 13000100000000050000000001", &[0, 0], 20, 1);
    refused("01 10000000000001 1200010000000000", &[0, 0], 20, 1);
    // full means all ended and all queues empty; a thread that failed still moves its stores
    refused("01 10000000000001", &[0], 21, 1);
    refused("01 10000000000001 23000000000001", &[0], 21, 1);
    assert!(held_schedule(&mut random, &lines("01 10000000000001 23000000000001"), &[0, 0x10], 512).is_ok());
}

/// Sixteen stores make thirty-two steps; larger programs' schedules, of which no list is made.
#[test]
fn thirty_two_steps() {
    let mut random = Random::new(4);
    let private: String = (0..4).map(|t| format!("01 {} ", format!("100{t}0000000001 ").repeat(4))).collect();
    let file = lines(&private);
    let steps: Vec<u8> = [0, 1, 2, 3, 0x10, 0x11, 0x12, 0x13].iter().flat_map(|byte| [*byte; 4]).collect();
    let list = [Listed { schedule: steps.clone(), fails: false }];
    by_calls(&mut random, &file, &list);
    held_count(&mut random, &file, Ok((1, 0)));
    held_rows(&mut random, &file, None, 3 * ROW, &Ok(rows(&list, None, 3 * ROW)));
    held_schedule(&mut random, &file, &steps, 512).expect("full");
    let mut long = 0;
    for k in 0..share::of(2_000) {
        let size = Size { threads: 2 + k % 5, instructions: 16 / (2 + k % 5), accesses: 16, locations: 3, ..SMALL };
        let file = text(&random_tso::frames(&mut random, size));
        let given = random_tso::full(&mut random, &accepted(&file).unwrap());
        long += (given.len() > 24) as usize;
        held_schedule(&mut random, &file, &given, 512).expect("full");
    }
    assert!(!share::whole() || long > 5, "{long}");
}

/// Programs of at most 16 accesses, small ones most of all.
const SIZES: [Size; 6] = [
    Size { threads: 3, instructions: 4, accesses: 7, ..SMALL },
    Size { threads: 2, instructions: 6, accesses: 9, ..SMALL },
    Size { threads: 4, instructions: 3, accesses: 7, ..SMALL },
    Size { threads: 6, instructions: 2, accesses: 7, locations: 3, ..SMALL },
    Size { threads: 2, instructions: 8, accesses: 16, locations: 1, ..SMALL },
    Size { threads: 3, instructions: 6, accesses: 12, locations: 3, ..SMALL },
];

/// Lists that take more steps to walk over are passed over.
const STEPS: u64 = 12_000;

#[test]
fn random_programs() {
    let mut random = Random::new(0x7452);
    let mut seen: BTreeMap<&str, usize> = BTreeMap::new();
    for k in 0..share::of(10_400) {
        let size = SIZES[k % SIZES.len()];
        let frames = if k % 4 == 0 { frames_parted(&mut random, size) } else { random_tso::frames(&mut random, size) };
        let file = text(&frames);
        let program = accepted(&file).expect("at most 16 accesses");
        let Some(list) = list_within(&program, STEPS) else {
            *seen.entry("too large").or_default() += 1;
            continue;
        };
        held_rows(&mut random, &file, None, (list.len() + 1) * ROW, &Ok(rows(&list, None, usize::MAX)));
        held_count(&mut random, &file, Ok(count(&list)));
        if k % 8 == 0 {
            by_calls(&mut random, &file, &list);
        }
        let some = random.below(list.len());
        held_schedule(&mut random, &file, &list[some].schedule, 512).expect("full");
        let given = random_tso::full(&mut random, &program);
        let graph = &run_full(&program, &given).unwrap().graph;
        *seen.entry("in a class of more").or_default() += (class(&program, graph).len() > 1) as usize;
        *seen.entry("more than one listed").or_default() += (list.len() > 1) as usize;
        held_rows(&mut random, &file, Some(&given), 3 * ROW, &Ok(rows(&list, Some(&given), 3 * ROW)));
        *seen.entry("listed").or_default() += list.len();
    }
    println!("{seen:?}");
    assert!(
        !share::whole() || (seen["too large"] <= 400 && seen["listed"] > 100_000 && seen["in a class of more"] > 300),
        "{seen:?}"
    );
}

/// Programs of 12 to 16 accesses, beside the search by rules in plain Rust.
#[test]
fn larger_programs() {
    let mut random = Random::new(0x7458);
    let (mut compared, mut all) = (0, 0);
    for k in 0..share::of(400) {
        let size = Size { threads: 2 + k % 4, instructions: 8, accesses: 12 + k % 5, locations: 2 + k % 3, ..SMALL };
        let file = text(&random_tso::frames(&mut random, size));
        let program = accepted(&file).expect("at most 16 accesses");
        let mut list = Vec::new();
        if !Search::new(&program)
            .list_within(4_000, &mut |schedule, fails| list.push(Listed { schedule: schedule.to_vec(), fails }))
        {
            continue;
        }
        held_rows(&mut random, &file, None, (list.len() + 1) * ROW, &Ok(rows(&list, None, usize::MAX)));
        held_count(&mut random, &file, Ok(count(&list)));
        compared += 1;
        all += list.len();
    }
    println!("{compared} programs, {all} listed");
    assert!(!share::whole() || compared > 200, "{compared}");
}

/// Damaged schedules, and outputs of every length from 0 to 60 and around 512.
#[test]
fn schedules_and_outputs() {
    let mut random = Random::new(0x7453);
    let mut numbers: BTreeMap<u8, usize> = BTreeMap::new();
    for k in 0..share::of(600) {
        let file = text(&random_tso::frames(&mut random, SIZES[k % 4]));
        let program = accepted(&file).unwrap();
        let Some(list) = list_within(&program, 3_000) else { continue };
        for kind in schedule::ALL {
            let given = random_tso::schedule(&mut random, &program, kind);
            let output = random.pick(&[0, 48, 60, 511, 512, 513, 600]);
            let found = held_schedule(&mut random, &file, &given, output);
            *numbers.entry(found.map_or_else(|refusal| refusal.number, |_| 0)).or_default() += 1;
            let output = random.pick(&[0, 24, 47, 48, 49, 60]);
            let found = oracle::continue_in(&list, &file, &given, output);
            held(&mut random, [&file, &given], output, &found, |[file, last], out| tso::continue_from(file, last, out));
            held_rows(&mut random, &file, Some(&given), output, &Ok(rows(&list, Some(&given), output)));
        }
        if k % 20 == 0 {
            every_output(&mut random, &file, &list);
        }
    }
    println!("{numbers:?}");
    assert!(!share::whole() || [0, 20, 21, 22].iter().all(|number| numbers[number] > 200), "{numbers:?}");
}

fn every_output(random: &mut Random, file: &[u8], list: &[Listed]) {
    for output in 0..=60 {
        held(random, [file], output, &oracle::start_in(list, file, output), |[file], out| tso::start(file, out));
        held(random, [file], output, &oracle::violation_in(list, file, output), |[file], out| tso::violation(file, out));
        for given in [&list[0].schedule, &list[list.len() - 1].schedule] {
            let found = oracle::continue_in(list, file, given, output);
            held(random, [file, given], output, &found, |[file, last], out| tso::continue_from(file, last, out));
            held_schedule(random, file, given, output).unwrap_err();
        }
        held_rows(random, file, None, output, &Ok(rows(list, None, output)));
    }
}

/// Damaged files, and files of more accesses than this listing takes: the refusal, and no byte changes.
#[test]
fn refused_files() {
    let mut random = Random::new(0x7454);
    let mut numbers: BTreeMap<u8, usize> = BTreeMap::new();
    for k in 0..share::of(4_000) {
        let file = match k % 4 {
            0 => text(&random_tso::frames(&mut random, Size { threads: 4, instructions: 8, accesses: 20, ..ANY })),
            _ => {
                let damage = random.pick(&damage::ALL);
                damage::file(&mut random, damage)
            }
        };
        let Err(refusal) = accepted(&file) else { continue };
        *numbers.entry(refusal.number).or_default() += 1;
        let given: Vec<u8> = (0..random.below(40)).map(|_| random.byte()).collect();
        let output = random.pick(&[0, 24, 47, 48, 49, 60, 512, 600]);
        held(&mut random, [&file], output, &Err(refusal), |[file], out| tso::start(file, out));
        held(&mut random, [&file], output, &Err(refusal), |[file], out| tso::violation(file, out));
        held(&mut random, [&file, &given], output, &Err(refusal), |[file, last], out| tso::continue_from(file, last, out));
        held_schedule(&mut random, &file, &given, output).unwrap_err();
        held_rows(&mut random, &file, None, output, &Err(refusal));
        held_rows(&mut random, &file, Some(&given), output, &Err(refusal));
        held_count(&mut random, &file, Err(refusal));
    }
    println!("{numbers:?}");
    assert!(!share::whole() || (numbers.len() >= 9 && numbers[&41] > 300), "{numbers:?}");
}
