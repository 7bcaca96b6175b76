//! Changes of a graph's text: of one line, of the order of lines, of characters.
use super::Change::{self, *};
use crate::files::text;
use crate::oracle::graph::Graph;
use crate::random::{remarks, Random};

/// The frames of a graph's text.
fn frames(graph: &Graph) -> Vec<Vec<u8>> {
    let reads = graph.reads.iter().map(|(read, source)| vec![0x40, read.t, read.i, source.t, source.i]);
    let line = |l: &u8| [vec![0x41, *l], graph.writes[l].iter().flat_map(|e| [e.t, e.i]).collect()].concat();
    reads.chain(graph.writes.keys().map(line)).collect()
}

/// A line of many different writes, of one to six threads: often more than any program does, sometimes one of them twice.
fn long_writes(random: &mut Random) -> Vec<u8> {
    let threads = random.between(1, 6) as u8;
    let mut all: Vec<[u8; 2]> = (0..16 * threads).map(|k| [k / 16, k % 16]).collect();
    random.shuffle(&mut all);
    all.truncate(random.between(10, 96));
    if random.one_in(3) {
        // one of them once more, at the end
        all.push(all[random.below(all.len())]);
    }
    [vec![0x41, random.below(8) as u8], all.concat()].concat()
}

/// Changes the frame at a place of the list.
fn line(random: &mut Random, change: Change, frames: &mut Vec<Vec<u8>>, at: usize) {
    let byte = random.byte();
    let frame = &mut frames[at];
    let length = frame.len();
    let field = random.between(1, length - 1);
    match change {
        Field => frame[field] = byte,
        NearField => frame[field] = random.pick(&[0, 1, 2, 5, 6, 7, 8, 15, 16, 0xff]),
        HalfInitial => frame[length - 1 - (byte % 2) as usize] = 0xff,
        FirstByte => frame[0] = random.pick(&[0x40, 0x41, 0x42, 0x00, byte]),
        Length => frame.resize(random.between(1, length + 3), 0),
        EventTwice => {
            let events: Vec<u8> = frames.iter().filter(|f| f[0] == 0x41).flat_map(|f| f[2..].to_vec()).collect();
            if let Some(from) = (events.len() / 2).checked_sub(1) {
                let k = random.between(0, from);
                frames.last_mut().unwrap().extend([events[2 * k], events[2 * k + 1]]);
            }
        }
        TwiceLine => frames.insert(at, frames[at].clone()),
        SwappedLines => {
            let other = random.below(frames.len());
            frames.swap(at, other);
        }
        MovedLine => {
            let moved = frames.remove(at);
            let to = random.between(0, frames.len());
            frames.insert(to, moved);
        }
        LocationTwice => {
            let l = frames.last().filter(|f| f[0] == 0x41).map_or(0, |f| f[1]);
            frames.push(vec![0x41, l, 0, byte % 16]);
        }
        _ => {}
    }
}

/// Changes characters of a text.
fn characters(random: &mut Random, change: Change, text: &mut Vec<u8>) {
    let at = random.below(text.len().max(1));
    match change {
        Empty => text.clear(),
        AnyBytes => *text = (0..random.below(60)).map(|_| random.byte()).collect(),
        EmptyLine => {
            let ends: Vec<usize> = (0..=text.len()).filter(|&k| k == 0 || text[k - 1] == b'\n').collect();
            text.insert(random.pick(&ends), b'\n');
        }
        LongLine => {
            let ends: Vec<usize> = (0..=text.len()).filter(|&k| k == 0 || text[k - 1] == b'\n').collect();
            let digits = random.pick(&[12, 100, 1001, 5000]) + random.below(3);
            let begun = random.pick(&[&b"4000"[..], b"4100", b"00"]);
            let end = random.pick(&[&b"\n"[..], b"\n", b"x\n"]);
            let line = [begun, &vec![b'0'; digits], end].concat();
            let to = random.pick(&ends);
            text.splice(to..to, line);
        }
        OpenRemark => {
            text.extend(remarks::remark(random));
            text.pop();
        }
        LateRemark => {
            let ends: Vec<usize> = (0..=text.len()).filter(|&k| k == 0 || text[k - 1] == b'\n').collect();
            let to = random.pick(&ends);
            text.splice(to..to, *b" #\n");
        }
        _ if text.is_empty() => {}
        AnyByte => text[at] = random.byte(),
        Capital => {
            let letters: Vec<usize> = (0..text.len()).filter(|&k| text[k].is_ascii_lowercase()).collect();
            let at = if letters.is_empty() { at } else { random.pick(&letters) };
            text[at] = random.pick(&[b'G', b'@', text[at].to_ascii_uppercase()]);
        }
        OddLine => drop(text.remove(at)),
        LostLastNewline => drop(text.pop()),
        _ => {}
    }
}

/// The text of a graph, with this change.
pub fn changed(random: &mut Random, change: Change, graph: &Graph) -> Vec<u8> {
    let mut frames = frames(graph);
    if change == LongWrites {
        frames.retain(|f| f[0] == 0x40);
        frames.push(long_writes(random));
    } else if !frames.is_empty() {
        let at = random.below(frames.len());
        line(random, change, &mut frames, at);
    }
    let mut text = text(&frames);
    if random.one_in(3) {
        remarks::noise(random, &mut text);
    }
    characters(random, change, &mut text);
    text
}
