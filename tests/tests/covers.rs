//! One program against another: the call agrees with brute force over all full schedules of both.
use std::collections::BTreeSet;
use tarczolin_tests::calls;
use tarczolin_tests::files::{lines, text};
use tarczolin_tests::lent::held_covers;
use tarczolin_tests::oracle::covers::{call, covers, outcomes, Covers};
use tarczolin_tests::oracle::decode::decode;
use tarczolin_tests::oracle::listing;
use tarczolin_tests::oracle::machine::run_full;
use tarczolin_tests::random::program::{frames_parted, instruction, Size, SMALL};
use tarczolin_tests::random::{damage, Random};
use tarczolin_tests::share;

/// Sizes at which every full schedule of two programs can be walked; few locations and constants, so that outcomes meet.
const SIZES: [Size; 4] = [
    SMALL,
    Size { threads: 2, instructions: 6, accesses: 8, locations: 1, ..SMALL },
    Size { threads: 3, instructions: 3, accesses: 6, locations: 2, constants: 2, ..SMALL },
    Size { threads: 4, instructions: 3, accesses: 6, locations: 1, constants: 2, ..SMALL },
];

/// A small change: an instruction anew, dropped or doubled, or the `02` lines dropped. The result may be refused.
fn changed(random: &mut Random, size: Size, frames: &[Vec<u8>]) -> Vec<Vec<u8>> {
    let mut all: Vec<Vec<u8>> = frames.iter().filter(|frame| frame[0] != 0x02).cloned().collect();
    let code: Vec<usize> = (0..all.len()).filter(|&k| all[k][0] >= 0x10).collect();
    if code.is_empty() || random.one_in(6) {
        return all;
    }
    let at = random.pick(&code);
    match random.below(4) {
        0 => drop(all.remove(at)),
        1 => all.insert(at, all[at].clone()),
        _ => all[at] = instruction(random, size, all[at][0]),
    }
    all
}

/// How often each answer came.
#[derive(Debug, Default)]
struct Seen {
    covered: usize,
    lacking: usize,
    /// Not the first listed schedule of the second file.
    later: usize,
    /// The outcomes differ only in what fails.
    by_failure: usize,
    refused: [usize; 2],
    short: usize,
}

impl Seen {
    fn add(&mut self, first: &[u8], second: &[u8], found: &Covers) {
        match found {
            Covers::Covered => self.covered += 1,
            Covers::Lacking(schedule) => {
                self.lacking += 1;
                let [first, second] = [first, second].map(|file| decode(file).unwrap());
                self.later += (listing::start(&listing::list(&second)).as_ref() != Some(schedule)) as usize;
                let memory = run_full(&second, schedule).unwrap().memory;
                self.by_failure += outcomes(&first).iter().any(|outcome| outcome.0 == memory) as usize;
            }
            Covers::First(_) => self.refused[0] += 1,
            Covers::Second(_) => self.refused[1] += 1,
            Covers::Output => self.short += 1,
        }
    }
}

#[test]
fn random_pairs_and_small_changes() {
    let mut random = Random::new(0x636f_7665_7273);
    let mut seen = Seen::default();
    for k in 0..share::of(6_000) {
        let size = SIZES[k % SIZES.len()];
        let one = frames_parted(&mut random, size);
        let other = if k % 3 == 0 { frames_parted(&mut random, size) } else { changed(&mut random, size, &one) };
        let (one, other) = (text(&one), text(&other));
        for (first, second) in [(&one, &other), (&other, &one)] {
            let output = if random.one_in(8) { random.below(24) } else { random.between(24, 40) };
            let found = call(first, second, output);
            seen.add(first, second, &found);
            held_covers(&mut random, [first, second], output, &found);
        }
    }
    if share::whole() {
        assert!(seen.covered > 1_000 && seen.lacking > 1_000 && seen.later > 40, "{seen:?}");
        assert!(seen.by_failure > 100 && seen.short > 100, "{seen:?}");
    }
}

#[test]
fn every_program_covers_itself_and_covering_is_transitive() {
    let mut random = Random::new(0x7472_616e_7369);
    let mut chains = 0;
    for k in 0..share::of(1_500) {
        let size = SIZES[k % SIZES.len()];
        let one = frames_parted(&mut random, size);
        let other = changed(&mut random, size, &one);
        let third = changed(&mut random, size, &other);
        let files = [one, other, third].map(|frames| text(&frames));
        let says = |a: usize, b: usize| calls::covers(&files[a], &files[b], &mut [0; 24]) == calls::Covers::Covered;
        for (k, file) in files.iter().enumerate() {
            assert_eq!(says(k, k), decode(file).is_ok());
        }
        if says(0, 1) && says(1, 2) {
            chains += 1;
            assert!(says(0, 2));
        }
    }
    assert!(!share::whole() || chains > 200, "{chains}");
}

#[test]
fn damaged_files_in_either_place() {
    let mut random = Random::new(0x6461_6d61_6765);
    let mut seen = Seen::default();
    for _ in 0..share::of(200) {
        for kind in damage::ALL {
            let bad = damage::file(&mut random, kind);
            if decode(&bad).is_ok() {
                continue;
            }
            let good = text(&frames_parted(&mut random, SMALL));
            let worse = {
                let kind = random.pick(&damage::ALL);
                damage::file(&mut random, kind)
            };
            let output = random.between(0, 30);
            for (first, second) in [(&bad, &good), (&good, &bad), (&bad, &worse)] {
                let found = call(first, second, output);
                seen.add(first, second, &found);
                held_covers(&mut random, [first, second], output, &found);
            }
        }
    }
    assert!(seen.refused.iter().all(|&refused| refused > 20), "{seen:?}");
}

#[test]
fn outputs_of_every_length() {
    let mut random = Random::new(0x6f75_7470_7574);
    let pair = lines("01 10000000000001 110001 01 10010000000001 110000");
    let queue = lines("01 110000 21000000000001 10000100000000 01 110000 21000000000001 10000100000000");
    for output in 0..=30 {
        for (first, second) in [(&pair, &pair), (&pair, &queue), (&queue, &pair)] {
            let found = call(first, second, output);
            assert_eq!(found == Covers::Output, output < 24);
            held_covers(&mut random, [first, second], output, &found);
        }
    }
}

/// Threads that draw numbers and keep them at locations of their own: an outcome for each order in which they draw.
fn drawing(threads: usize) -> Vec<u8> {
    lines(&(0..threads).map(|t| format!("01 1200000000000001 10{:02x}0100000000 ", t + 1)).collect::<String>())
}

#[test]
fn more_outcomes_than_a_batch_holds() {
    let five = drawing(5);
    assert_eq!(outcomes(&decode(&five).unwrap()).len(), 120);
    let mut random = Random::new(5);
    held_covers(&mut random, [&five, &five], 24, &Covers::Covered);
    // the last thread keeps nothing: the outcomes of the first are fewer, and none is the second's
    let kept = lines(&(0..5).map(|t| format!("01 1200000000000001 10{:02x}0100000000 ", t % 4 + 1)).collect::<String>());
    for (first, second) in [(&five, &kept), (&kept, &five)] {
        held_covers(&mut random, [first, second], 24, &call(first, second, 24));
    }
    let six = drawing(6);
    assert_eq!(calls::covers(&six, &six, &mut [0; 24]), calls::Covers::Covered);
}

/// The one outcome that is lacked comes late, behind more than a batch of outcomes that are not.
#[test]
fn a_late_outcome_is_found() {
    let five = drawing(5);
    let program = decode(&five).unwrap();
    let list = listing::list(&program);
    let last = &list.last().unwrap().schedule;
    let memory = run_full(&program, last).unwrap().memory;
    // the second program fails where the fifth thread draws what it draws last, and only there
    let failing = lines(&format!(
        "{} 01 1200000000000001 10050100000000 2300000000000{}",
        (0..4).map(|t| format!("01 1200000000000001 10{:02x}0100000000 ", t + 1)).collect::<String>(),
        memory[5]
    ));
    let met: BTreeSet<_> = outcomes(&decode(&failing).unwrap());
    assert!(met.iter().any(|(_, fails)| *fails));
    let mut random = Random::new(6);
    for (first, second) in [(&five, &failing), (&failing, &five)] {
        held_covers(&mut random, [first, second], 24, &call(first, second, 24));
    }
}

/// The wrong answers that the contract rules out.
#[test]
fn known_answers() {
    let asserted = lines("01 110000 23000000000000 01 10000000000001");
    let plain = lines("01 110000 01 10000000000001");
    // final memory is the same; only what fails differs
    assert!(!covers(&decode(&plain).unwrap(), &decode(&asserted).unwrap()));
    let mut random = Random::new(7);
    held_covers(&mut random, [&plain, &asserted], 24, &Covers::Lacking(vec![1, 0]));
    held_covers(&mut random, [&asserted, &plain], 24, &Covers::Covered);
    // the second program's schedule is answered, not the first's: one has steps, the other none
    held_covers(&mut random, [b"01\n", &plain], 24, &Covers::Lacking(vec![0, 1]));
    held_covers(&mut random, [&plain, b"01\n"], 24, &Covers::Lacking(vec![]));
    // no file, no thread: both end as they begin
    held_covers(&mut random, [b"", b"01\n"], 24, &Covers::Covered);
}
