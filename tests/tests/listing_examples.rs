//! Start, continue, count and violation on the programs that document 01, docs/CONTRACT.md and the papers tell of, with their exact
//! answers.
use tarczolin_tests::calls::{self, Answer};
use tarczolin_tests::files::{lines, read};
use tarczolin_tests::lent::held;
use tarczolin_tests::oracle::calls::{self as oracle, Found};
use tarczolin_tests::oracle::Refusal;
use tarczolin_tests::random::Random;

const PAIR: &str = "01 10000000000001 110001 01 10010000000001 110000";

fn example(name: &str) -> Vec<u8> {
    read(&format!("examples/{name}.hex"))
}

fn start(file: &[u8], output: usize, found: &Found) {
    held(&mut Random::new(34), [file], output, found, |[file], out| calls::start(file, out));
}

fn continue_from(file: &[u8], schedule: &[u8], output: usize, found: &Found) {
    let call = |[file, schedule]: [&[u8]; 2], out: &mut [u8]| calls::continue_from(file, schedule, out);
    held(&mut Random::new(35), [file, schedule], output, found, call);
}

fn violation(file: &[u8], output: usize, found: &Found) {
    held(&mut Random::new(36), [file], output, found, |[file], out| calls::violation(file, out));
}

fn counts(file: &[u8]) -> (u64, u64) {
    let (mut listed, mut failing) = (0, 0);
    assert_eq!(calls::count(file, &mut listed, &mut failing), Answer::Answered(0));
    (listed, failing)
}

fn refusal(number: u8, place: u64) -> Found {
    Err(Refusal { number, place })
}

/// The list of a file is exactly this: by start and continue, by its counts, and by its first failing member.
fn list(name: &str, file: &[u8], schedules: &[&[u8]], failing: &[&[u8]]) {
    println!("{name}");
    start(file, 24, &Ok(Some(schedules[0].to_vec())));
    for (k, schedule) in schedules.iter().enumerate() {
        continue_from(file, schedule, 24, &Ok(schedules.get(k + 1).map(|s| s.to_vec())));
    }
    assert_eq!(counts(file), (schedules.len() as u64, failing.len() as u64), "{name}");
    violation(file, 24, &Ok(failing.first().map(|s| s.to_vec())));
}

/// A file, its list, and the members of the list that fail.
type Case<'a> = (&'a str, &'a [&'a [u8]], &'a [&'a [u8]]);

#[test]
fn known_lists() {
    let all: [Case; 18] = [
        ("empty-thread", &[&[]], &[]),
        ("no-thread", &[&[]], &[]),
        ("whole", &[&[0, 1, 2], &[1, 0, 2], &[1, 2, 0]], &[]),
        ("whole-without-02", &[&[0, 1, 2], &[1, 0, 2], &[1, 2, 0], &[2, 0, 1]], &[]),
        ("load-add-store", &[&[0, 0, 1, 1], &[0, 1, 0, 1], &[0, 1, 1, 0], &[1, 1, 0, 0]], &[]),
        ("load-add-store-alike", &[&[0, 0, 1, 1], &[0, 1, 0, 1]], &[]),
        ("compare-and-swap-3", &[&[0, 1, 2], &[1, 0, 2], &[2, 0, 1]], &[]),
        ("compare-and-swap-3-alike", &[&[0, 1, 2]], &[]),
        ("fetch-and-add-3", &[&[0, 1, 2], &[0, 2, 1], &[1, 0, 2], &[1, 2, 0], &[2, 0, 1], &[2, 1, 0]], &[]),
        ("fetch-and-add-3-alike", &[&[0, 1, 2]], &[]),
        ("store-load-pair", &[&[0, 0, 1, 1], &[0, 1, 0, 1], &[1, 1, 0, 0]], &[]),
        ("load-assert-beside-store", &[&[0, 1], &[1, 0]], &[&[1, 0]]),
        ("six-stores", &[&[0, 1, 2, 3, 4, 5]], &[]),
        ("add-wraps", &[&[0, 0, 0]], &[]),
        (
            "queue-broken",
            &[
                &[0, 0, 1, 1, 2, 2, 2],
                &[0, 0, 1, 2, 2, 2, 1],
                &[0, 0, 2, 1, 1, 2],
                &[0, 1, 1, 2, 2, 0],
                &[0, 2, 1, 1, 2, 0],
                &[2, 0, 0, 1, 1],
            ],
            &[&[0, 0, 1, 2, 2, 2, 1], &[0, 1, 1, 2, 2, 0], &[0, 2, 1, 1, 2, 0]],
        ),
        ("queue-repaired", &[&[0, 0, 0, 1, 1, 1, 2, 2, 2, 2], &[0, 0, 0, 1, 1, 2, 2, 2, 1], &[0, 0, 1, 1, 1, 2, 0]], &[]),
        ("adding-zero-3", &[&[0, 1, 2]], &[]),
        ("message-passing", &[&[0, 0, 1, 1], &[0, 1, 0, 1], &[1, 1, 0, 0]], &[]),
    ];
    for (name, schedules, failing) in all {
        list(name, &example(name), schedules, failing);
    }
    let loads = [vec![0; 12], vec![1; 12]].concat();
    list("accesses-24", &example("accesses-24"), &[&loads], &[]);
    let (mut listed, mut failing) = (7, 8);
    let answer = calls::count(&example("accesses-25-refused"), &mut listed, &mut failing);
    assert_eq!((answer, listed, failing), (Answer::Refused(6, 27), 7, 8), "the 25th access");
}

/// The decided readings on lists and outputs, by their numbers.
#[test]
fn decided_readings() {
    let pair = lines(PAIR);
    list("13: an assertion that fails before the first step", &lines("01 23000000000001"), &[&[]], &[&[]]);
    let same = lines("01 13000000000000000000000000 01 13000000000000000000000000");
    list("15: a swap of 0 to 0 writes", &same, &[&[0, 1], &[1, 0]], &[]);
    list("40: a fetch and add of 0 only reads", &lines("01 1200000000000000 01 110000"), &[&[0, 1]], &[]);
    continue_from(&pair, &[0, 0, 1, 1, 0], 24, &refusal(20, 4)); // 16
    continue_from(&pair, &[1, 2], 24, &refusal(20, 1)); // 17
    continue_from(&pair, &[1, 0], 24, &refusal(21, 2));
    continue_from(&pair, &[], 24, &refusal(21, 0));
    continue_from(&example("whole-without-02"), &[2, 1, 0], 24, &Ok(None)); // 18
    continue_from(&example("whole"), &[2, 0, 1], 24, &Ok(None));
    continue_from(&example("whole"), &[0, 2, 1], 24, &Ok(Some(vec![1, 0, 2])));
    continue_from(&pair, &[9], 23, &refusal(22, 0)); // 20
    continue_from(&pair, &[1, 1, 0, 0], 23, &refusal(22, 0));
    violation(&pair, 23, &refusal(22, 0));
    start(&lines("01"), 23, &refusal(22, 0));
    start(&lines("0x"), 0, &refusal(2, 1));
}

/// Outputs of every length, for each call.
#[test]
fn every_output() {
    for name in ["whole", "load-assert-beside-store", "empty-thread", "no-thread"] {
        let file = example(name);
        let first = oracle::start(&file, 24).unwrap().unwrap();
        for output in (0..=64).chain([512, 4096]) {
            start(&file, output, &oracle::start(&file, output));
            continue_from(&file, &first, output, &oracle::continue_from(&file, &first, output));
            violation(&file, output, &oracle::violation(&file, output));
        }
    }
}
