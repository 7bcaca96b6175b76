//! Damages of the text.
use super::Damage::{self, *};
use crate::random::{remarks, Random};

/// Damages the text of a file: its characters and its lines' ends.
pub fn damage(random: &mut Random, damage: Damage, file: &mut Vec<u8>) {
    if file.is_empty() && !matches!(damage, AnyBytes | AnyDigits) {
        return;
    }
    match damage {
        AnyByte => {
            let at = random.below(file.len());
            file[at] = random.byte();
        }
        LostByte => {
            let at = random.below(file.len());
            file.remove(at);
        }
        MoreByte => {
            let at = random.between(0, file.len());
            let byte = if random.one_in(2) { random.byte() } else { random.pick(b"0123456789abcdef\n\r #x") };
            file.insert(at, byte);
        }
        LostLastNewline => {
            file.pop();
        }
        Capital => {
            let letters: Vec<usize> = (0..file.len()).filter(|&k| file[k].is_ascii_lowercase()).collect();
            if !letters.is_empty() {
                let at = random.pick(&letters);
                file[at] = random.pick(&[b'G', b'Z', b'@', file[at].to_ascii_uppercase()]);
            }
        }
        EmptyLine => {
            let at = line_start(random, file);
            file.insert(at, b'\n');
        }
        OddLine => {
            let at = line_start(random, file);
            if random.one_in(2) && file.get(at).is_some_and(|&c| c != b'\n') {
                file.remove(at);
            } else {
                file.insert(at, random.pick(b"0123456789abcdef"));
            }
        }
        Padded => pad(random, file),
        FilledRemark => {
            let length = random.pick(&[4095, 4096, 4096, 4097]);
            remarks::fill(random, file, length);
        }
        OpenRemark => {
            file.extend(remarks::remark(random));
            file.pop();
        }
        LateRemark => {
            let at = line_start(random, file);
            let before = random.pick(&[&b" "[..], b"\t", b"\r", b"0", b"00"]);
            file.splice(at..at, [before, b"#\n"].concat());
        }
        AnyBytes => {
            let length = random.pick(&[1, 2, 3, 7, 40, 400, 4095, 4096, 4097, 9000]);
            *file = (0..length).map(|_| random.byte()).collect();
        }
        AnyDigits => {
            let length = random.pick(&[1, 2, 3, 7, 40, 400, 4095, 4096, 4097]);
            *file = (0..length).map(|_| random.pick(b"0123456789abcdef0012\n")).collect();
        }
        _ => {}
    }
}

/// Makes the file about as long as it may be, by a last line or by a line in front.
fn pad(random: &mut Random, file: &mut Vec<u8>) {
    let length = random.pick(&[4094, 4095, 4096, 4097, 4098, 5000]);
    if file.len() >= length {
        return;
    }
    let more = length - file.len();
    let mut line: Vec<u8> = (0..more).map(|_| random.pick(b"0123456789abcdef")).collect();
    if !random.one_in(3) {
        line[more - 1] = b'\n';
    }
    if random.one_in(3) {
        file.splice(0..0, line);
    } else {
        file.extend(line);
    }
}

/// A place where a line begins, or the end of the file.
fn line_start(random: &mut Random, file: &[u8]) -> usize {
    let starts: Vec<usize> = (0..=file.len()).filter(|&k| k == 0 || file[k - 1] == b'\n').collect();
    random.pick(&starts)
}
