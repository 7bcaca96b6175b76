//! Remarks and capital digits for program files and graph texts.
use super::Random;

/// The line of a random remark: any bytes but 0a, sometimes none.
pub fn remark(random: &mut Random) -> Vec<u8> {
    let length = random.pick(&[0, 1, 2, 9, 30, 120]);
    let any = |random: &mut Random| if random.one_in(3) { random.pick(b"\r #01afAF\0") } else { random.byte() };
    let bytes = (0..length).map(|_| any(random)).map(|b| if b == b'\n' { 0xff } else { b });
    [b"#".to_vec(), bytes.collect(), b"\n".to_vec()].concat()
}

/// The places where a line begins, and the end of a text whose last line is ended.
fn line_starts(text: &[u8]) -> Vec<usize> {
    (0..=text.len()).filter(|&k| k == 0 || text[k - 1] == b'\n').collect()
}

/// Puts remarks before, between and behind the lines of a text.
pub fn sprinkle(random: &mut Random, text: &mut Vec<u8>) {
    for _ in 0..random.pick(&[1, 1, 2, 3, 8]) {
        let starts = line_starts(text);
        // often in front of all lines, and behind them
        let at = match random.below(4) {
            0 => starts[0],
            1 => starts[starts.len() - 1],
            _ => random.pick(&starts),
        };
        text.splice(at..at, remark(random));
    }
}

/// Makes some or all of the letters a to f of a text capitals.
pub fn capitals(random: &mut Random, text: &mut [u8]) {
    let one_in = random.pick(&[1, 2, 5]);
    for c in text.iter_mut().filter(|c| (b'a'..=b'f').contains(c)) {
        if random.one_in(one_in) {
            *c = c.to_ascii_uppercase();
        }
    }
}

/// Both, or one of the two: a text that says the same.
pub fn noise(random: &mut Random, text: &mut Vec<u8>) {
    if !random.one_in(3) {
        capitals(random, text);
    }
    if !random.one_in(3) {
        sprinkle(random, text);
    }
}

/// Makes a text exactly so long, if it is shorter, by a remark in front of one of its lines or behind them.
pub fn fill(random: &mut Random, text: &mut Vec<u8>, length: usize) {
    let Some(more) = length.checked_sub(text.len()).filter(|&more| more >= 2) else { return };
    let bytes = (0..more - 2).map(|_| random.byte()).map(|b| if b == b'\n' { 0 } else { b });
    let line = [b"#".to_vec(), bytes.collect(), b"\n".to_vec()].concat();
    let starts = line_starts(text);
    let at = random.pick(&starts);
    text.splice(at..at, line);
}
