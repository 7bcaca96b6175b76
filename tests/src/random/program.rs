//! Random accepted programs, as frames.
use super::Random;

/// How large a random program may be.
#[derive(Clone, Copy, Debug)]
pub struct Size {
    pub threads: usize,
    pub instructions: usize,
    pub accesses: usize,
    pub locations: usize,
    pub registers: usize,
    /// Most constants are below this, some where two's complement turns; 0: any 32 bits, often there.
    pub constants: usize,
}

/// Whatever document 01 allows.
pub const ANY: Size = Size { threads: 6, instructions: 16, accesses: 24, locations: 8, registers: 4, constants: 0 };

/// Small enough to walk every schedule: values and places meet often.
pub const SMALL: Size = Size { threads: 3, instructions: 5, accesses: 8, locations: 2, registers: 2, constants: 3 };

/// The frames of a random accepted program; one in fifty has no thread, one in three lets locations start with values.
pub fn frames(random: &mut Random, size: Size) -> Vec<Vec<u8>> {
    let mut all = if random.one_in(3) { starts(random, size) } else { Vec::new() };
    if random.one_in(50) {
        return all;
    }
    let threads = random.between(1, size.threads);
    // threads of one class have equal code; most classes of two or more are declared alike
    let classes = random.between(1, threads);
    let class: Vec<usize> = (0..threads).map(|_| random.below(classes)).collect();
    let mut left = size.accesses;
    let mut codes = Vec::new();
    for c in 0..classes {
        let members = class.iter().filter(|&&k| k == c).count().max(1);
        let instructions = if random.one_in(8) { size.instructions } else { random.between(0, size.instructions) };
        let code = code(random, size, instructions, left / members);
        left -= members * code.iter().filter(|f| is_access(f)).count();
        codes.push(code);
    }
    for &c in &class {
        all.push(vec![0x01]);
        all.extend(codes[c].iter().cloned());
    }
    let mut order: Vec<usize> = (0..classes).collect();
    random.shuffle(&mut order);
    for c in order {
        let members: Vec<u8> = (0..threads as u8).filter(|&t| class[t as usize] == c).collect();
        if members.len() > 1 && !random.one_in(4) {
            all.push([vec![0x02], members].concat());
        }
    }
    all
}

/// `03` lines, each for another location.
fn starts(random: &mut Random, size: Size) -> Vec<Vec<u8>> {
    let mut locations: Vec<u8> = (0..size.locations as u8).collect();
    random.shuffle(&mut locations);
    locations.truncate(random.between(1, size.locations));
    locations.into_iter().map(|l| start(random, size, l)).collect()
}

/// A `03` line of this location.
pub fn start(random: &mut Random, size: Size, l: u8) -> Vec<u8> {
    [vec![0x03, l], constant(random, size).to_be_bytes().to_vec()].concat()
}

/// The frames of a random accepted program whose `02` lines sometimes leave a thread of that code out, or part in two.
pub fn frames_parted(random: &mut Random, size: Size) -> Vec<Vec<u8>> {
    let mut all = Vec::new();
    for frame in frames(random, size) {
        if frame[0] == 0x02 && frame.len() >= 5 && random.one_in(3) {
            let at = random.between(3, frame.len() - 2);
            all.extend([frame[..at].to_vec(), [&[0x02], &frame[at..]].concat()]);
        } else if frame[0] == 0x02 && frame.len() >= 4 && random.one_in(4) {
            let lost = random.between(1, frame.len() - 1);
            all.push([&frame[..lost], &frame[lost + 1..]].concat());
        } else {
            all.push(frame);
        }
    }
    all
}

/// The frames of a program of 24 accesses and nothing else: every full schedule has 24 steps.
pub fn straight(random: &mut Random, locations: usize) -> Vec<Vec<u8>> {
    let size = Size { locations, registers: 2, constants: 3, ..ANY };
    let threads = random.pick(&[2, 3, 4, 6]);
    // some have the longest graph texts: every access reads, and almost every one writes
    let kinds: &[u8] = if random.one_in(8) { &[0x12] } else { &[0x10, 0x11, 0x12, 0x13] };
    let mut all = Vec::new();
    for _ in 0..threads {
        all.push(vec![0x01]);
        for _ in 0..ANY.accesses / threads {
            let kind = random.pick(kinds);
            let mut frame = instruction(random, size, kind);
            if kind == 0x12 && !random.one_in(12) {
                frame[3..].copy_from_slice(&[0, 0, 0, 0, 1]);
            }
            all.push(frame);
        }
    }
    all
}

/// Is this the frame of an access?
pub fn is_access(frame: &[u8]) -> bool {
    (0x10..=0x13).contains(&frame[0])
}

/// Does an instruction of this kind skip?
fn is_skip(kind: u8) -> bool {
    matches!(kind, 0x22 | 0x24)
}

/// The code of one thread: so many instructions, at most so many accesses, and skips that end within it.
pub fn code(random: &mut Random, size: Size, instructions: usize, accesses: usize) -> Vec<Vec<u8>> {
    let mut left = accesses;
    let mut code = Vec::new();
    for k in 0..instructions {
        let behind = instructions - 1 - k;
        let kind = loop {
            let kind = random.pick(&[0x10, 0x11, 0x12, 0x13, 0x10, 0x11, 0x20, 0x21, 0x22, 0x23, 0x24, 0x25]);
            if (kind < 0x20 && left == 0) || (is_skip(kind) && behind == 0) {
                continue;
            }
            break kind;
        };
        let mut frame = instruction(random, size, kind);
        if is_skip(kind) {
            frame[7] = if random.one_in(3) { behind } else { random.between(1, behind) } as u8;
        }
        left -= is_access(&frame) as usize;
        code.push(frame);
    }
    code
}

/// One instruction of that kind, its fields in range; a skip is of any length.
pub fn instruction(random: &mut Random, size: Size, kind: u8) -> Vec<u8> {
    let r = random.below(size.registers) as u8;
    let l = random.below(size.locations) as u8;
    let mut frame = vec![kind];
    match kind {
        0x10 => frame.push(l),
        0x11 => frame.extend([r, l]),
        0x12 => frame.extend([r, l]),
        0x13 => {
            frame.extend([r, l]);
            frame.extend(operand(random, size));
        }
        _ => frame.push(r),
    }
    if kind == 0x12 && random.one_in(8) {
        // adding zero is reading
        frame.extend([0; 5]);
    } else if kind != 0x11 {
        frame.extend(operand(random, size));
    }
    if is_skip(kind) {
        frame.push(random.between(1, 15) as u8);
    }
    frame
}

/// A value at one of the points where two's complement turns, or one or two beside it.
fn near_a_turn(random: &mut Random) -> u32 {
    let turn: u32 = random.pick(&[0x7fff_ffff, 0x8000_0000, 0xffff_ffff]);
    turn.wrapping_add(random.below(4) as u32).wrapping_sub(2)
}

fn operand(random: &mut Random, size: Size) -> Vec<u8> {
    if random.one_in(4) {
        return vec![1, 0, 0, 0, random.below(size.registers) as u8];
    }
    [vec![0], constant(random, size).to_be_bytes().to_vec()].concat()
}

fn constant(random: &mut Random, size: Size) -> u32 {
    if size.constants > 0 && !random.one_in(6) {
        random.below(size.constants) as u32
    } else if size.constants > 0 || random.one_in(3) {
        near_a_turn(random)
    } else if random.one_in(3) {
        random.below(3) as u32
    } else {
        random.word() as u32
    }
}
