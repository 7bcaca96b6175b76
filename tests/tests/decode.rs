//! `tarczolin_check` and the oracle agree on random program files, accepted and damaged in every way.
use std::collections::{BTreeMap, BTreeSet};
use tarczolin_tests::calls::{check, Answer};
use tarczolin_tests::oracle::decode::{decode, ACCESSES, INSTRUCTIONS, THREADS};
use tarczolin_tests::random::damage::{self, Damage};
use tarczolin_tests::random::Random;
use tarczolin_tests::share;

const FILES: usize = 400_000;

/// What the files reached.
#[derive(Default)]
struct Seen {
    files: usize,
    accepted: usize,
    refused: BTreeMap<u8, usize>,
    places: BTreeMap<u8, BTreeSet<u64>>,
    lengths: BTreeSet<usize>,
    /// Which of the 256 bytes stood in some file.
    bytes: Vec<bool>,
    by_damage: BTreeMap<(Damage, Option<u8>), usize>,
    full_threads: usize,
    full_code: usize,
    full_accesses: usize,
}

impl Seen {
    /// Asks both on one file, and notes what came out.
    fn ask(&mut self, damage: Damage, file: &[u8]) {
        let lent = file.to_vec();
        let answer = check(&lent);
        assert_eq!(lent, file, "the lent file is unchanged");
        let number = match decode(file) {
            Ok(program) => {
                assert_eq!(answer, Answer::Answered(0), "{}", String::from_utf8_lossy(file));
                self.accepted += 1;
                self.full_threads += (program.threads.len() == THREADS) as usize;
                self.full_code += program.threads.iter().any(|code| code.len() == INSTRUCTIONS) as usize;
                self.full_accesses += (program.threads.iter().flatten().filter(|i| i.is_access()).count() == ACCESSES) as usize;
                None
            }
            Err(r) => {
                assert_eq!(answer, Answer::Refused(r.number, r.place), "{}", String::from_utf8_lossy(file));
                *self.refused.entry(r.number).or_default() += 1;
                self.places.entry(r.number).or_default().insert(r.place);
                Some(r.number)
            }
        };
        self.files += 1;
        self.lengths.insert(file.len());
        self.bytes.resize(256, false);
        file.iter().for_each(|&b| self.bytes[b as usize] = true);
        *self.by_damage.entry((damage, number)).or_default() += 1;
    }

    fn of(&self, damage: Damage, number: u8) -> usize {
        self.by_damage.get(&(damage, Some(number))).copied().unwrap_or(0)
    }

    fn passed(&self, damage: Damage) -> usize {
        self.by_damage.get(&(damage, None)).copied().unwrap_or(0)
    }
}

#[test]
fn library_and_oracle_agree() {
    let mut random = Random::new(1);
    let mut seen = Seen::default();
    for k in 0..share::of(FILES) {
        // every third file is as it should be
        let damage = if k % 3 == 0 { Damage::Nothing } else { damage::ALL[k / 3 % damage::ALL.len()] };
        seen.ask(damage, &damage::file(&mut random, damage));
    }
    println!("{} files, {} accepted, refused by number {:?}", seen.files, seen.accepted, seen.refused);
    for (number, places) in &seen.places {
        println!("refusal {number} at {} places", places.len());
    }
    if !share::whole() {
        return;
    }
    assert!(seen.files >= 200_000 && seen.accepted >= 50_000);
    assert!(!seen.refused.contains_key(&9), "9 never occurs");
    for number in (1..=8).chain([40]) {
        assert!(seen.refused[&number] >= 1_000, "refusal {number}: {:?}", seen.refused);
        // the place of 1 is always 0
        let places = if number == 1 { 1 } else { 20 };
        assert!(seen.places[&number].len() >= places, "places of refusal {number}");
    }
    for length in [0, 1, 4095, 4096, 4097] {
        assert!(seen.lengths.contains(&length), "a file of {length} bytes");
    }
    assert!(seen.bytes.iter().all(|&b| b), "bytes of all values");
    assert!(seen.full_threads >= 1_000 && seen.full_code >= 1_000 && seen.full_accesses >= 1_000, "limits hit");
    damages_do_what_they_say(&seen);
}

/// Each damage reached the refusal it aims at, and those at a limit were also accepted.
fn damages_do_what_they_say(seen: &Seen) {
    use Damage::*;
    assert!((1..=8).chain([40]).all(|number| seen.of(Nothing, number) == 0), "a file without damage is accepted");
    let aims = [
        (LostLastNewline, 2),
        (Capital, 2),
        (EmptyLine, 2),
        (OddLine, 2),
        (AnyByte, 2),
        (Padded, 1),
        (FilledRemark, 1),
        (OpenRemark, 2),
        (LateRemark, 2),
        (FirstByte, 3),
        (Length, 3),
        (Field, 4),
        (Operand, 4),
        (SwappedLines, 5),
        (InstructionFirst, 5),
        (BehindAlike, 5),
        (BehindAlike, 40),
        (StartAnywhere, 4),
        (StartAnywhere, 40),
        (StartTwice, 40),
        (Threads, 6),
        (Instructions, 6),
        (Accesses, 6),
        (Skip, 7),
        (AlikeMember, 8),
        (AlikeTwice, 8),
        (AlikeCode, 8),
        (AlikeLength, 3),
        (Threadless, 8),
    ];
    for (damage, number) in aims {
        assert!(seen.of(damage, number) >= 500, "{damage:?} reached {number} {} times", seen.of(damage, number));
    }
    let not_always = [
        Capital,
        FilledRemark,
        Field,
        Operand,
        SwappedLines,
        StartAnywhere,
        Threads,
        Instructions,
        Accesses,
        Skip,
        AlikeMember,
        AlikeCode,
        AlikeLength,
        Empty,
        Threadless,
    ];
    for damage in not_always {
        assert!(seen.passed(damage) >= 100, "{damage:?} was accepted {} times", seen.passed(damage));
    }
}

/// Each of the 256 bytes at each place of a short file, each byte lost, and every file of one byte.
#[test]
fn every_byte_at_every_place() {
    let mut seen = Seen::default();
    let file = tarczolin_tests::files::read("examples/load-assert-beside-store.hex");
    for at in 0..file.len() {
        for byte in 0..=255 {
            let mut changed = file.clone();
            changed[at] = byte;
            seen.ask(Damage::AnyByte, &changed);
        }
        seen.ask(Damage::LostByte, &[&file[..at], &file[at + 1..]].concat());
        seen.ask(Damage::LostLastNewline, &file[..at]);
    }
    for byte in 0..=255 {
        seen.ask(Damage::AnyBytes, &[byte]);
        seen.ask(Damage::FirstByte, format!("01\n{byte:02x}\n").as_bytes());
    }
    assert!(seen.accepted > 0 && seen.refused.len() >= 4, "{:?}", seen.refused);
}

/// Lines of one kind, of every length, with each of the 256 values in each field.
#[test]
fn every_value_in_every_field() {
    let mut seen = Seen::default();
    let size = tarczolin_tests::random::program::ANY;
    let mut random = Random::new(2);
    for kind in 0..=255u8 {
        let mut frame = tarczolin_tests::random::program::instruction(&mut random, size, kind);
        if kind == 0x22 {
            frame[7] = 1;
        }
        for length in 1..=20 {
            let mut changed = frame.clone();
            changed.resize(length, 0);
            seen.ask(Damage::Length, &tarczolin_tests::files::text(&[vec![1], vec![1], changed, vec![0x11, 0, 0]]));
        }
        for at in 1..frame.len() {
            for byte in 0..=255 {
                let mut changed = frame.clone();
                changed[at] = byte;
                seen.ask(Damage::Field, &tarczolin_tests::files::text(&[vec![1], changed, vec![0x11, 0, 0]]));
            }
        }
    }
    assert!(seen.accepted > 1_000 && seen.refused[&3] > 1_000 && seen.refused[&4] > 1_000 && seen.refused[&7] > 10);
}
