//! Damages of the frames.
use super::limits;
use super::Damage::{self, *};
use crate::random::program::{instruction, start, ANY};
use crate::random::Random;

/// Damages the frames of a file: their bytes, their order and their number.
pub fn damage(random: &mut Random, damage: Damage, frames: &mut Vec<Vec<u8>>) {
    if damage == AnyFrames {
        *frames = (0..random.between(1, 60)).map(|_| any_frame(random)).collect();
    }
    if damage == Empty {
        frames.clear();
    }
    if damage == Threadless {
        frames.retain(|frame| matches!(frame[0], 0x02 | 0x03));
    }
    if frames.is_empty() {
        return;
    }
    let at = random.below(frames.len());
    let other = random.below(frames.len());
    match damage {
        FirstByte => frames[at][0] = if random.one_in(3) { any_kind(random) } else { random.byte() },
        Field => {
            let k = random.below(frames[at].len());
            frames[at][k] = if random.one_in(2) { random.byte() } else { random.below(18) as u8 };
        }
        Length => {
            if random.one_in(2) {
                let more = random.pick(&[1, 1, 1, 2, 5, 13]);
                frames[at].extend(vec![0; more]);
            } else if frames[at].len() > 1 {
                frames[at].pop();
            }
        }
        Operand => operand(random, frames),
        SwappedLines => frames.swap(at, other),
        MovedLine => {
            let frame = frames.remove(at);
            frames.insert(other.min(frames.len()), frame);
        }
        TwiceLine => frames.insert(other, frames[at].clone()),
        LostLine => {
            frames.remove(at);
        }
        InstructionFirst => {
            let kind = any_kind(random);
            frames.insert(0, instruction_or_frame(random, kind));
        }
        StartAnywhere => {
            let l = random.below(10) as u8;
            frames.insert(random.between(0, frames.len()), start(random, ANY, l));
        }
        StartTwice => start_twice(random, frames),
        BehindAlike => limits::behind_alike(random, frames),
        Threads => {
            let now = frames.iter().filter(|f| f[0] == 0x01).count();
            let more = random.pick(&[6, 6, 7, 8]).max(now) - now;
            let from = first_alike(frames);
            frames.splice(from..from, vec![vec![0x01]; more]);
        }
        Instructions => limits::longer_thread(random, frames, &[0x20, 0x21, 0x23, 0x25], &[16, 16, 17, 18]),
        Accesses => limits::accesses(random, frames),
        Skip => limits::skip(random, frames),
        AlikeMember | AlikeLength | AlikeTwice | AlikeCode => limits::alike(random, damage, frames),
        _ => {}
    }
}

pub fn any_kind(random: &mut Random) -> u8 {
    random.pick(&[0x01, 0x02, 0x03, 0x10, 0x11, 0x12, 0x13, 0x20, 0x21, 0x22, 0x23, 0x24, 0x25])
}

pub fn instruction_or_frame(random: &mut Random, kind: u8) -> Vec<u8> {
    match kind {
        0x01 => vec![0x01],
        0x02 => vec![0x02, 0, 1],
        0x03 => start(random, ANY, 0),
        _ => instruction(random, ANY, kind),
    }
}

/// A second `03` line for one location, with the same value or another, among those in front of the threads.
fn start_twice(random: &mut Random, frames: &mut Vec<Vec<u8>>) {
    if frames[0][0] != 0x03 {
        let l = random.below(8) as u8;
        frames.insert(0, start(random, ANY, l));
    }
    let count = frames.iter().take_while(|frame| frame[0] == 0x03).count();
    let mut again = frames[random.below(count)].clone();
    if again.len() > 1 && random.one_in(2) {
        again = start(random, ANY, again[1]);
    }
    frames.insert(random.between(0, count), again);
}

/// Mostly a thread or a good instruction, now and then something else.
fn any_frame(random: &mut Random) -> Vec<u8> {
    match random.below(40) {
        0..=8 => vec![0x01],
        9 => {
            let first = random.below(4) as u8;
            vec![0x02, first, first + random.between(0, 3) as u8]
        }
        11 => {
            let l = random.below(9) as u8;
            start(random, ANY, l)
        }
        10 => (0..random.between(1, 14)).map(|_| random.byte()).collect(),
        _ => {
            let kind = random.pick(&[0x10, 0x11, 0x12, 0x13, 0x20, 0x21, 0x23, 0x20, 0x21, 0x25]);
            instruction(random, ANY, kind)
        }
    }
}

/// Where the lines that declare threads alike begin.
pub fn first_alike(frames: &[Vec<u8>]) -> usize {
    frames.iter().position(|f| f[0] == 0x02).unwrap_or(frames.len())
}

/// Changes the kind or the number of an operand, at or past the range.
fn operand(random: &mut Random, frames: &mut [Vec<u8>]) {
    let with: Vec<usize> = (0..frames.len()).filter(|&k| frames[k].len() > 6 && frames[k][0] >= 0x10).collect();
    if with.is_empty() {
        return;
    }
    let frame = &mut frames[random.pick(&with)];
    let from = match frame[0] {
        0x12 => 3,
        0x13 => random.pick(&[3, 8]),
        _ => 2,
    };
    let kind = random.pick(&[0, 1, 1, 1, 1, 2, 0xff]);
    let number: u32 = random.pick(&[3, 4, 0x100, 0x0100_0000, 0x0001_0000, 0xffff_ffff, 5]);
    if frame.len() >= from + 5 {
        frame[from] = kind;
        frame[from + 1..from + 5].copy_from_slice(&number.to_be_bytes());
    }
}
