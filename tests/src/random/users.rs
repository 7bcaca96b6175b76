//! Random lists of calls on four records, and records that are damaged.
use super::program::{frames_parted, Size, SMALL};
use super::{damage, schedule, Random};
use crate::files::{lines, text};
use crate::oracle::decode::decode;
use crate::oracle::users::{Call, Mark, Record, Shared, FREE};

/// Lists short enough that a caller comes to their end.
const SHORT: Size = Size { threads: 3, instructions: 3, accesses: 4, ..SMALL };

/// So many stores beside so many loads: 6, 20, 70 listed for 2, 3, 4.
fn beside(accesses: usize) -> Vec<u8> {
    lines(&format!("01 {} 01 {}", "10000000000001 ".repeat(accesses), "110000 ".repeat(accesses)))
}

/// The programs of one list of calls: few, so that callers share them; one is refused.
pub fn files(random: &mut Random) -> Vec<Vec<u8>> {
    let mut files: Vec<Vec<u8>> = (0..6)
        .map(|k| text(&frames_parted(random, if k < 2 { SHORT } else { SMALL })))
        .chain([Vec::new(), lines("01 23000000000001"), beside(2), beside(3), beside(4), beside(4)])
        .collect();
    // a refused one: an accepted one may be too large to walk
    files.push(loop {
        let damage = random.pick(&damage::ALL);
        let file = damage::file(random, damage);
        if decode(&file).is_err() {
            break file;
        }
    });
    files
}

/// A caller; one in twenty is none of the four.
fn caller(random: &mut Random) -> usize {
    match random.below(20) {
        0 => random.pick(&[4, 5, 7, 8, 255, 256, 1 << 32, usize::MAX]),
        _ => random.below(4),
    }
}

/// A name; few, so that they meet, and one in twelve of another length than 1 to 8.
fn name(random: &mut Random) -> Vec<u8> {
    match random.below(12) {
        0 => vec![b'n'; random.pick(&[0, 9, 10, 256, 257])],
        1 => vec![0; random.between(1, 8)],
        _ => vec![b'a' + random.below(10) as u8; random.pick(&[1, 1, 1, 1, 1, 8])],
    }
}

/// A call, most often one that is answered by a schedule.
pub fn call(random: &mut Random, files: &[Vec<u8>]) -> Call {
    match random.below(22) {
        0..=1 => Call::Open(caller(random), files[random.below(files.len())].clone()),
        2..=7 => Call::Ask(caller(random)),
        8 if random.one_in(2) => Call::Close(caller(random)),
        9 => Call::Serve(random.below(60)),
        10..=12 => Call::Set(caller(random), name(random)),
        13..=14 => Call::Return(caller(random), name(random)),
        15 => Call::Forget(caller(random), name(random)),
        _ => Call::Serve(random.between(24, 40)),
    }
}

/// Something else in a record than calls leave there, or in the number of the last caller.
pub fn damage(random: &mut Random, files: &[Vec<u8>], shared: &mut Shared) {
    match random.below(12) {
        0 => shared.last = random.pick(&[0, 1, 2, 3, 4, 5, 255, 256, 257, 1 << 32, u64::MAX]),
        1 => shared.records[random.below(4)].count = random.pick(&[u64::MAX, u64::MAX - 1, 0, 1 << 40]),
        _ => {
            let k = random.below(4);
            damage_record(random, files, &mut shared.records[k]);
        }
    }
}

fn damage_record(random: &mut Random, files: &[Vec<u8>], record: &mut Record) {
    match random.below(36) {
        0 => record.place = random.below(6) as u8,
        1 => record.place = random.byte(),
        2 => record.asking = random.below(4) as u8,
        3 => record.asking = random.byte(),
        4 => record.steps = random.pick(&[0, 1, 23, 24, 25, 26, 128, 255]),
        5 => record.steps = record.steps.wrapping_add(random.pick(&[1, 255])),
        6 => {
            record.length =
                random.pick(&[0, 4096, 4097, 4098, 1 << 32, u64::MAX, record.length.wrapping_sub(1), record.length + 1])
        }
        7 => {
            let front = random.pick(&[40, 4096]);
            let at = random.below(front);
            record.file[at] = random.byte();
        }
        8 => record.schedule.iter_mut().for_each(|step| *step = random.byte()),
        9 => {
            // another file, with the place left as it is
            let file = &files[random.below(files.len())];
            let length = file.len().min(4096);
            record.file[..length].copy_from_slice(&file[..length]);
            record.length = length as u64;
        }
        10 => {
            if let Some((steps, schedule)) = some_schedule(random, record) {
                (record.place, record.steps, record.schedule) = (2, steps, schedule);
            }
        }
        11..=14 => damage_newest(random, record),
        _ => damage_marks(random, record),
    }
    if random.one_in(3) {
        record.padding[random.below(3)] = random.byte();
    }
}

/// A schedule of the record's program as it would stand there: a full one, listed or not, or one that is none.
fn some_schedule(random: &mut Random, record: &Record) -> Option<(u8, [u8; 24])> {
    let program = decode(record.file.get(..record.length as usize)?).ok()?;
    let kind = if random.one_in(3) { random.pick(&schedule::ALL) } else { schedule::Kind::Full };
    let steps = schedule::schedule(random, &program, kind);
    let (shown, mut schedule) = (steps.len().min(24), [0; 24]);
    schedule[..shown].copy_from_slice(&steps[..shown]);
    Some((steps.len().min(255) as u8, schedule))
}

/// Another schedule as the last one handed, or none.
fn damage_newest(random: &mut Random, record: &mut Record) {
    match random.below(5) {
        0 => record.handed = random.pick(&[0, 1, 2, 255]),
        1 => record.size = random.pick(&[0, 1, 24, 25, 255]),
        2 => record.size = record.size.wrapping_add(random.pick(&[1, 255])),
        3 => record.newest[random.below(4)] = random.below(4) as u8,
        _ => {
            if let Some((size, newest)) = some_schedule(random, record) {
                (record.handed, record.size, record.newest) = (1, size, newest);
            }
        }
    }
}

/// Marks of another length, place or name, behind schedules that are full or not, and two of one name.
fn damage_marks(random: &mut Random, record: &mut Record) {
    let used: Vec<usize> = (0..8).filter(|at| record.marks[*at].length != 0).collect();
    if used.is_empty() || random.one_in(8) {
        return eight_marks(random, record);
    }
    let (at, other) = (random.pick(&used), random.below(8));
    let found = some_schedule(random, record);
    let mark = &mut record.marks[at];
    match random.below(9) {
        0 => mark.length = random.pick(&[0, 2, 8, 9, 24, 255]),
        1 => mark.place = random.pick(&[0, 1, 2, 3, 3, 4, 255]),
        2 => mark.steps = random.pick(&[0, 1, 24, 25, 255]),
        3 => mark.steps = mark.steps.wrapping_add(random.pick(&[1, 255])),
        4 => mark.schedule[random.below(4)] = random.below(4) as u8,
        5 => mark.name[random.below(8)] = random.byte(),
        6 => {
            let bytes =
                mark.name.iter_mut().chain([&mut mark.length, &mut mark.place, &mut mark.steps]).chain(&mut mark.schedule);
            bytes.for_each(|byte| *byte = random.byte());
        }
        _ => {
            // the same name once more, before or behind it, at another place
            record.marks[other] = record.marks[at];
            if let Some((steps, schedule)) = found {
                let mark = &mut record.marks[other];
                (mark.place, mark.steps, mark.schedule) = (2, steps, schedule);
            }
        }
    }
}

/// A mark in every slot, most under names of their own.
fn eight_marks(random: &mut Random, record: &mut Record) {
    for at in 0..8 {
        let mut mark = Mark { length: 1, place: 1, ..FREE };
        mark.name[0] = b'a' + if random.one_in(12) { random.below(10) as u8 } else { at as u8 };
        if let (true, Some((steps, schedule))) = (random.one_in(2), some_schedule(random, record)) {
            (mark.place, mark.steps, mark.schedule) = (2, steps, schedule);
        }
        record.marks[at] = mark;
    }
}
