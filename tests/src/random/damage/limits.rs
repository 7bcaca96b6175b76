//! Damages at the limits, and of the lines that declare threads alike.
use super::frames::{any_kind, first_alike, instruction_or_frame};
use super::Damage::{self, *};
use crate::random::program::{instruction, is_access, ANY};
use crate::random::Random;

/// A line behind one that declares threads alike.
pub fn behind_alike(random: &mut Random, frames: &mut Vec<Vec<u8>>) {
    if first_alike(frames) == frames.len() {
        frames.truncate(program_of_one(frames));
        frames.push(vec![0x01]);
        frames.push(vec![0x01]);
        let last = frames.iter().filter(|f| f[0] == 0x01).count() as u8 - 1;
        frames.push(vec![0x02, last - 1, last]);
    }
    let kind = any_kind(random);
    let frame = instruction_or_frame(random, kind);
    frames.push(frame);
}

/// The number of lines of the first thread.
fn program_of_one(frames: &[Vec<u8>]) -> usize {
    frames.iter().skip(1).position(|f| f[0] == 0x01).map_or(frames.len(), |k| k + 1)
}

/// Adds instructions of some kinds to one thread until it has one of the lengths.
pub fn longer_thread(random: &mut Random, frames: &mut Vec<Vec<u8>>, kinds: &[u8], lengths: &[usize]) {
    let opened: Vec<usize> = (0..frames.len()).filter(|&k| frames[k][0] == 0x01).collect();
    if opened.is_empty() {
        return;
    }
    let from = random.pick(&opened) + 1;
    let now = frames[from..].iter().position(|f| f[0] < 0x10).unwrap_or(frames.len() - from);
    let length = random.pick(lengths);
    for _ in now..length {
        let kind = random.pick(kinds);
        frames.insert(from, instruction(random, ANY, kind));
    }
    if length <= 16 {
        drop_alike(frames);
    }
}

/// Without the lines that declare threads alike: the codes may differ now.
fn drop_alike(frames: &mut Vec<Vec<u8>>) {
    frames.truncate(first_alike(frames));
}

/// 24 accesses, or a 25th: in threads of their own behind those that are there.
pub fn accesses(random: &mut Random, frames: &mut Vec<Vec<u8>>) {
    drop_alike(frames);
    let wanted = random.pick(&[23, 24, 24, 25, 26]);
    let mut now = frames.iter().filter(|f| is_access(f)).count();
    let mut threads = frames.iter().filter(|f| f[0] == 0x01).count();
    let mut room = 0;
    while now < wanted {
        if room == 0 {
            if threads == 6 {
                // start anew: one thread in six of the accesses
                frames.clear();
                (now, threads) = (0, 0);
            }
            frames.push(vec![0x01]);
            threads += 1;
            room = 16;
        }
        let kind = random.pick(&[0x10, 0x11, 0x12, 0x13]);
        frames.push(instruction(random, ANY, kind));
        now += 1;
        room -= 1;
    }
}

/// A skip to just behind the end of its thread, or one further.
pub fn skip(random: &mut Random, frames: &mut Vec<Vec<u8>>) {
    drop_alike(frames);
    for _ in 0..random.between(1, 2) {
        let code: Vec<usize> = (0..frames.len()).filter(|&k| frames[k][0] >= 0x10).collect();
        if code.is_empty() {
            return;
        }
        let at = random.pick(&code);
        let behind = frames[at + 1..].iter().position(|f| f[0] < 0x10).unwrap_or(frames.len() - at - 1);
        let kind = random.pick(&[0x22, 0x24]);
        let mut frame = instruction(random, ANY, kind);
        frame[7] = (behind + random.below(3)).clamp(1, 15) as u8;
        frames[at] = frame;
    }
}

/// A line that declares threads alike and may not, or code that differs in one instruction.
pub fn alike(random: &mut Random, damage: Damage, frames: &mut Vec<Vec<u8>>) {
    let threads = frames.iter().filter(|f| f[0] == 0x01).count();
    let any = |random: &mut Random| if random.one_in(8) { random.byte() } else { random.below(threads + 1) as u8 };
    match damage {
        AlikeMember => {
            let frame = [0x02, any(random), any(random)];
            let at = random.between(first_alike(frames), frames.len());
            frames.insert(at, frame.to_vec());
        }
        AlikeLength => {
            let members = random.pick(&[0, 1, 2, 5, 6, 7, 8]);
            let first = random.below(2) as u8;
            frames.push([0x02].into_iter().chain(first..first + members).collect());
        }
        AlikeTwice => {
            let at = first_alike(frames);
            if at < frames.len() {
                let mut again = frames[at].clone();
                if random.one_in(2) && again.len() > 3 {
                    again.remove(1);
                }
                frames.push(again);
            }
        }
        _ => {
            // one field of one instruction changes within its range, in a thread that may be declared alike
            let code: Vec<usize> = (0..frames.len()).filter(|&k| frames[k][0] >= 0x10).collect();
            if !code.is_empty() {
                let at = random.pick(&code);
                let kind = frames[at][0];
                let new = instruction(random, ANY, kind);
                let n = frames[at].get(7).copied();
                frames[at] = new;
                if let (0x22 | 0x24, Some(n)) = (kind, n) {
                    frames[at][7] = n;
                }
            }
        }
    }
}
