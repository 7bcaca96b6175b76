//! Who can force the failure: the library, a plain recursion and, for small games, every strategy tried agree.
use std::collections::BTreeMap;
use tarczolin_tests::calls::{self, Answer, SCHEDULE};
use tarczolin_tests::files::{lines, text};
use tarczolin_tests::oracle::decode::decode;
use tarczolin_tests::oracle::force::{force, forced, forced_by_strategies, Forced};
use tarczolin_tests::oracle::machine::Machine;
use tarczolin_tests::oracle::Refusal;
use tarczolin_tests::random::program::{frames_parted, Size, SMALL};
use tarczolin_tests::random::{damage, Random};
use tarczolin_tests::scratch::{Scratch, LONG, SHORT};
use tarczolin_tests::share;

/// The answer that the oracle's stands for.
fn shown(found: &Result<Forced, Refusal>) -> Answer {
    match found {
        Ok(Forced::Hostile(step)) => Answer::Answered(step.map_or(0, |t| t as u64 + 1)),
        Ok(Forced::Friendly) => Answer::None,
        Err(refusal) => Answer::Refused(refusal.number, refusal.place),
    }
}

/// Holds the call with scratches of these lengths, filled with random words, to the oracle.
fn held_with(random: &mut Random, lengths: &[usize], file: &[u8], set: u8, found: &Result<Forced, Refusal>) {
    for &words in lengths {
        Scratch::new(random, words).held(shown(found), |scratch| calls::force_with(file, set, scratch), file);
    }
}

/// Holds the call to the oracle, and to the violation call where the hostile side can force. The lent bytes stay.
fn held(file: &[u8], set: u8, found: &Result<Forced, Refusal>) {
    let lent = file.to_vec();
    assert_eq!(calls::force(&lent, set), shown(found), "{} by {set:02x}", String::from_utf8_lossy(file));
    assert_eq!(lent, file);
    if let Ok(Forced::Hostile(_)) = found {
        let violation = calls::violation(file, &mut [0; SCHEDULE]);
        assert!(matches!(violation, Answer::Answered(_)), "{} by {set:02x}: {violation:?}", String::from_utf8_lossy(file));
    }
}

fn known(words: &str, set: u8, answer: Answer) {
    let file = lines(words);
    assert_eq!(calls::force(&file, set), answer, "{words} by {set:02x}");
    let found = force(&file, set);
    held(&file, set, &found);
    let mut random = Random::new(set as u64);
    held_with(&mut random, &SHORT, &file, set, &found);
    held_with(&mut random, &[LONG], &file, set, &found);
}

const LOAD_ASSERT: &str = "01 110000 23000000000000";
const STORE: &str = "01 10000000000001";

#[test]
fn load_and_assert_beside_a_store() {
    let words = format!("{LOAD_ASSERT} {STORE}");
    // the loading thread steps first if it is hostile, and reads 0; the storing one if that is
    known(&words, 0b01, Answer::None);
    known(&words, 0b10, Answer::Answered(2));
    // alone, the hostile side steps again and again, and so does the friendly side
    known(&words, 0b11, Answer::Answered(2));
    known(&words, 0b00, Answer::None);
}

#[test]
fn a_failure_before_the_first_step_is_forced() {
    // no hostile thread has a step before the first one
    known("01 23000000000001 01 110000", 0b01, Answer::Answered(0));
    known("01 23000000000001 01 110000", 0b00, Answer::Answered(0));
    // the hostile thread has one, and whatever it does keeps the win
    known("01 23000000000001 01 110000", 0b10, Answer::Answered(2));
    known("01 23000000000001 01 110000 01 110000", 0b110, Answer::Answered(2));
}

#[test]
fn a_side_with_none_left_passes_as_often_as_its_turn_comes() {
    // the hostile store is over after one step; the friendly side then steps three times, and its last load fails
    known("01 10010000000001 01 110000 110000 110001 23000000000000", 0b01, Answer::Answered(1));
    // a hostile side that never steps loses nothing by it
    known("01 01 110000 23000000000001", 0b01, Answer::Answered(0));
}

#[test]
fn the_least_step_that_keeps_the_win() {
    // thread 0's step wins nothing, those of 1 and 2 do
    let words = format!("01 110001 {STORE} {STORE} {LOAD_ASSERT}");
    known(&words, 0b0111, Answer::Answered(2));
}

#[test]
fn the_set_names_threads_that_are_there() {
    let words = format!("{LOAD_ASSERT} {STORE}");
    known(&words, 0x80, Answer::Refused(48, 7));
    known(&words, 0xc4, Answer::Refused(48, 2));
    known(&words, 0x41, Answer::Refused(48, 6));
    known("", 0, Answer::None);
    known("", 1, Answer::Refused(48, 0));
    // the program's refusals come first
    known("01 100800000000", 0x80, Answer::Refused(3, 2));
}

/// Sizes at which every play can be walked.
const SIZES: [Size; 5] = [
    SMALL,
    Size { threads: 2, instructions: 8, accesses: 10, ..SMALL },
    Size { threads: 4, instructions: 5, accesses: 7, locations: 1, ..SMALL },
    Size { threads: 5, instructions: 4, accesses: 6, ..SMALL },
    Size { threads: 6, instructions: 3, accesses: 6, locations: 1, ..SMALL },
];

#[test]
fn library_and_recursion_agree_on_every_set() {
    let mut random = Random::new(0x6b);
    let mut seen: BTreeMap<&str, usize> = BTreeMap::new();
    let programs = share::of(1_500);
    for k in 0..programs {
        let mut file = text(&frames_parted(&mut random, SIZES[k % SIZES.len()]));
        // draws again, some times, until some schedule may fail
        for _ in 0..4 {
            if calls::violation(&file, &mut [0; SCHEDULE]) != Answer::None {
                break;
            }
            file = text(&frames_parted(&mut random, SIZES[k % SIZES.len()]));
        }
        for set in 0..=255 {
            let found = force(&file, set);
            held(&file, set, &found);
            // of the sets that name too much some are enough
            if found.is_ok() || set % 16 == 0 {
                held_with(&mut random, &SHORT, &file, set, &found);
            }
            if set == 0b101 && k % 10 == 0 {
                held_with(&mut random, &[LONG], &file, set, &found);
            }
            *seen
                .entry(match found {
                    Ok(Forced::Hostile(None)) => "hostile, passing",
                    Ok(Forced::Hostile(Some(0))) => "hostile, by thread 0",
                    Ok(Forced::Hostile(Some(_))) => "hostile, by another",
                    Ok(Forced::Friendly) => "friendly",
                    Err(_) => "48",
                })
                .or_default() += 1;
        }
    }
    println!("{programs} programs, every set: {seen:?}");
    assert!(!share::whole() || (seen.len() == 5 && seen.values().all(|&n| n > 500)), "{seen:?}");
}

#[test]
fn library_recursion_and_strategies_agree() {
    let mut random = Random::new(0x5712);
    let tiny = [
        Size { threads: 2, instructions: 4, accesses: 4, locations: 1, ..SMALL },
        Size { threads: 3, instructions: 3, accesses: 4, locations: 1, ..SMALL },
        Size { threads: 4, instructions: 3, accesses: 4, locations: 1, ..SMALL },
    ];
    let (mut hostile, mut friendly, mut more) = (0, 0, 0);
    for k in 0..share::of(3_000) {
        let file = text(&frames_parted(&mut random, tiny[k % tiny.len()]));
        let program = decode(&file).unwrap();
        for set in 0..1u8 << program.threads.len() {
            let Some((answer, other)) = forced_by_strategies(&program, set, 20_000) else { continue };
            assert_eq!(answer == Forced::Friendly, other, "exactly one side can force");
            assert_eq!(answer, forced(&program, set));
            held(&file, set, &Ok(answer));
            held_with(&mut random, &[64], &file, set, &Ok(answer));
            hostile += (answer != Forced::Friendly) as usize;
            friendly += (answer == Forced::Friendly) as usize;
            // neither the set of all threads nor none, and something fails: who steps when matters
            more += (matches!(answer, Forced::Hostile(_))
                && !Machine::new(&program).fails()
                && set != 0
                && set + 1 != 1 << program.threads.len()) as usize;
        }
    }
    println!("by strategies: hostile {hostile}, friendly {friendly}, hostile by playing {more}");
    assert!(!share::whole() || (hostile > 500 && friendly > 500 && more > 100));
}

#[test]
fn damaged_files_are_refused_first() {
    let mut random = Random::new(0xda);
    let mut numbers: BTreeMap<u8, usize> = BTreeMap::new();
    for _ in 0..share::of(20_000) {
        let damage = random.pick(&damage::ALL);
        let file = damage::file(&mut random, damage);
        let set = random.byte();
        // an accepted one may be too large to walk; a set that names too much is refused all the same
        let found = match decode(&file) {
            Ok(program) if set >> program.threads.len() == 0 => continue,
            _ => force(&file, set),
        };
        *numbers.entry(found.unwrap_err().number).or_default() += 1;
        held(&file, set, &found);
        held_with(&mut random, &[21], &file, set, &found);
    }
    println!("{numbers:?}");
    assert!(!share::whole() || (numbers.len() >= 8 && numbers[&48] > 100), "{numbers:?}");
}

/// Large games, which nobody plays to the end without remembering: the answer does not depend on how much is remembered.
#[test]
fn large_games_by_scratches_of_different_lengths() {
    let mut random = Random::new(0x24);
    let size = Size { threads: 6, instructions: 6, accesses: 24, locations: 2, ..SMALL };
    let (mut large, mut small) = (vec![0; 1 << 18], vec![0; 1 << 14]);
    let (mut hostile, mut friendly) = (0, 0);
    for _ in 0..share::of(200) {
        let file = text(&frames_parted(&mut random, size));
        let all = (1u8 << decode(&file).unwrap().threads.len()) - 1;
        for set in [0, all, random.byte() & all] {
            let answer = calls::force_with(&file, set, &mut large);
            assert_eq!(calls::force_with(&file, set, &mut small), answer, "{} by {set:02x}", file.escape_ascii());
            hostile += matches!(answer, Answer::Answered(_)) as usize;
            friendly += (answer == Answer::None) as usize;
        }
    }
    println!("large games: hostile {hostile}, friendly {friendly}");
    assert!(!share::whole() || (hostile > 50 && friendly > 50), "{hostile} {friendly}");
}
