//! Program files: the accepted program, or the refusal.
use super::{refused, Refusal};

pub const FILE_LIMIT: usize = 4096;
pub const THREADS: usize = 6;
pub const INSTRUCTIONS: usize = 16;
pub const ACCESSES: usize = 24;
pub const REGISTERS: u8 = 4;
pub const LOCATIONS: u8 = 8;
pub const LONGEST_SKIP: u8 = 15;

#[derive(Clone, Copy, Debug, PartialEq, Eq)]
pub enum Operand {
    Constant(u32),
    Register(u8),
}

/// An instruction; `r` is a register, `l` a location. `SkipUnless`: if `r` is not `p`, skip the next `n` instructions;
/// `SkipUnlessAtMost`: if `r` is not less than or equal to `p`, both as two's complement.
#[derive(Clone, Copy, Debug, PartialEq, Eq)]
pub enum Instruction {
    Store { l: u8, p: Operand },
    Load { r: u8, l: u8 },
    FetchAdd { r: u8, l: u8, p: Operand },
    CompareSwap { r: u8, l: u8, e: Operand, v: Operand },
    Set { r: u8, p: Operand },
    Add { r: u8, p: Operand },
    SkipUnless { r: u8, p: Operand, n: u8 },
    Assert { r: u8, p: Operand },
    SkipUnlessAtMost { r: u8, p: Operand, n: u8 },
    AssertAtMost { r: u8, p: Operand },
}

impl Instruction {
    pub fn is_access(&self) -> bool {
        use Instruction::*;
        matches!(self, Store { .. } | Load { .. } | FetchAdd { .. } | CompareSwap { .. })
    }
}

/// An accepted program: the code of each thread, the threads that each `02` line declares alike, and what each location starts with.
#[derive(Clone, Debug, Default, PartialEq, Eq)]
pub struct Program {
    pub threads: Vec<Vec<Instruction>>,
    pub alike: Vec<Vec<u8>>,
    pub memory: [u32; 8],
}

/// One frame, as far as its own line tells.
enum Frame {
    Thread,
    Instruction(Instruction),
    Alike,
    /// A location and the value that it starts with.
    Start(u8, u32),
}

/// The first bytes of a line, enough for the longest frame of any kind and one more to tell a longer line.
struct Line {
    bytes: [u8; 14],
    length: usize,
}

fn digit(c: u8) -> Option<u8> {
    match c {
        b'0'..=b'9' => Some(c - b'0'),
        b'a'..=b'f' => Some(c - b'a' + 10),
        b'A'..=b'F' => Some(c - b'A' + 10),
        _ => None,
    }
}

/// The frame bytes of a line without its 0a, or none: empty, odd, another character.
fn read_line(line: &[u8]) -> Option<Line> {
    if line.is_empty() || !line.len().is_multiple_of(2) {
        return None;
    }
    let mut read = Line { bytes: [0; 14], length: line.len() / 2 };
    for (k, pair) in line.chunks_exact(2).enumerate() {
        let byte = digit(pair[0])? << 4 | digit(pair[1])?;
        if k < 14 {
            read.bytes[k] = byte;
        }
    }
    Some(read)
}

/// Refusal 3: is the first byte known, and the length that of its kind?
fn of_its_kind(first: u8, length: usize) -> bool {
    match first {
        0x01 => length == 1,
        0x02 => (3..=7).contains(&length),
        0x03 => length == 6,
        0x10 | 0x20 | 0x21 | 0x23 | 0x25 => length == 7,
        0x11 => length == 3,
        0x12 | 0x22 | 0x24 => length == 8,
        0x13 => length == 13,
        _ => false,
    }
}

fn register(byte: u8) -> Option<u8> {
    (byte < REGISTERS).then_some(byte)
}

fn location(byte: u8) -> Option<u8> {
    (byte < LOCATIONS).then_some(byte)
}

fn skip(byte: u8) -> Option<u8> {
    (1..=LONGEST_SKIP).contains(&byte).then_some(byte)
}

fn operand(bytes: &[u8]) -> Option<Operand> {
    let value = u32::from_be_bytes([bytes[1], bytes[2], bytes[3], bytes[4]]);
    match bytes[0] {
        0 => Some(Operand::Constant(value)),
        1 if value < REGISTERS as u32 => Some(Operand::Register(value as u8)),
        _ => None,
    }
}

/// Refusal 4: the frame of a line of some kind, or none: a field out of range.
fn in_range(b: &[u8; 14]) -> Option<Frame> {
    use Instruction::*;
    Some(Frame::Instruction(match b[0] {
        0x01 => return Some(Frame::Thread),
        0x02 => return Some(Frame::Alike),
        0x03 => return Some(Frame::Start(location(b[1])?, u32::from_be_bytes([b[2], b[3], b[4], b[5]]))),
        0x10 => Store { l: location(b[1])?, p: operand(&b[2..7])? },
        0x11 => Load { r: register(b[1])?, l: location(b[2])? },
        0x12 => FetchAdd { r: register(b[1])?, l: location(b[2])?, p: operand(&b[3..8])? },
        0x13 => CompareSwap { r: register(b[1])?, l: location(b[2])?, e: operand(&b[3..8])?, v: operand(&b[8..13])? },
        0x20 => Set { r: register(b[1])?, p: operand(&b[2..7])? },
        0x21 => Add { r: register(b[1])?, p: operand(&b[2..7])? },
        0x22 => SkipUnless { r: register(b[1])?, p: operand(&b[2..7])?, n: skip(b[7])? },
        0x23 => Assert { r: register(b[1])?, p: operand(&b[2..7])? },
        0x24 => SkipUnlessAtMost { r: register(b[1])?, p: operand(&b[2..7])?, n: skip(b[7])? },
        _ => AssertAtMost { r: register(b[1])?, p: operand(&b[2..7])? },
    }))
}

/// What the lines so far have given.
struct Reader {
    program: Program,
    accesses: usize,
    /// The locations that `03` lines have named.
    given: Vec<u8>,
    /// The line of each instruction, thread by thread.
    places: Vec<Vec<usize>>,
}

impl Reader {
    /// One line, by 2, 3, 4, 5, 6, 40, 8. A remark says nothing.
    fn line(&mut self, line: &[u8], place: usize) -> Result<(), Refusal> {
        if line.starts_with(b"#") {
            return Ok(());
        }
        let Some(read) = read_line(line) else { return refused(2, place) };
        if !of_its_kind(read.bytes[0], read.length) {
            return refused(3, place);
        }
        match in_range(&read.bytes) {
            None => refused(4, place),
            Some(Frame::Thread) => self.thread(place),
            Some(Frame::Instruction(i)) => self.instruction(i, place),
            Some(Frame::Start(l, value)) => self.start(l, value, place),
            Some(Frame::Alike) => self.alike(&read.bytes[1..read.length], place),
        }
    }

    fn thread(&mut self, place: usize) -> Result<(), Refusal> {
        if !self.program.alike.is_empty() {
            return refused(5, place);
        }
        if self.program.threads.len() == THREADS {
            return refused(6, place);
        }
        self.places.push(Vec::with_capacity(INSTRUCTIONS));
        self.program.threads.push(Vec::with_capacity(INSTRUCTIONS));
        Ok(())
    }

    fn instruction(&mut self, instruction: Instruction, place: usize) -> Result<(), Refusal> {
        if !self.program.alike.is_empty() {
            return refused(5, place);
        }
        let Some(code) = self.program.threads.last_mut() else { return refused(5, place) };
        self.accesses += instruction.is_access() as usize;
        if code.len() == INSTRUCTIONS || self.accesses > ACCESSES {
            return refused(6, place);
        }
        code.push(instruction);
        self.places[self.program.threads.len() - 1].push(place);
        Ok(())
    }

    /// Refusal 40: after a thread or a `02` line, or a second one for its location.
    fn start(&mut self, l: u8, value: u32, place: usize) -> Result<(), Refusal> {
        if !self.program.threads.is_empty() || !self.program.alike.is_empty() || self.given.contains(&l) {
            return refused(40, place);
        }
        self.given.push(l);
        self.program.memory[l as usize] = value;
        Ok(())
    }

    fn alike(&mut self, members: &[u8], place: usize) -> Result<(), Refusal> {
        let threads = &self.program.threads;
        let exist = members.iter().all(|&t| (t as usize) < threads.len());
        let ascend = members.windows(2).all(|m| m[0] < m[1]);
        let named = members.iter().any(|t| self.program.alike.iter().any(|group| group.contains(t)));
        // two instructions are equal exactly when their bytes are
        if !exist || !ascend || named || members.iter().any(|&t| threads[t as usize] != threads[members[0] as usize]) {
            return refused(8, place);
        }
        self.program.alike.push(members.to_vec());
        Ok(())
    }

    /// Refusal 7: the line of the first skip that ends beyond its thread.
    fn long_skip(&self) -> Option<usize> {
        for (code, places) in self.program.threads.iter().zip(&self.places) {
            for (k, instruction) in code.iter().enumerate() {
                if let Instruction::SkipUnless { n, .. } | Instruction::SkipUnlessAtMost { n, .. } = instruction {
                    if k + 1 + *n as usize > code.len() {
                        return Some(places[k]);
                    }
                }
            }
        }
        None
    }
}

/// The program that a file holds, or its refusal: 1; then lines in order, each by 2, 3, 4, 5, 6, 40, 8; then 7. A file without a thread is a program.
pub fn decode(file: &[u8]) -> Result<Program, Refusal> {
    if file.len() > FILE_LIMIT {
        return refused(1, 0);
    }
    let mut reader = Reader { program: Program::default(), accesses: 0, given: Vec::new(), places: Vec::new() };
    let mut rest = file;
    let mut place = 0;
    while !rest.is_empty() {
        place += 1;
        let Some(end) = rest.iter().position(|&c| c == b'\n') else { return refused(2, place) };
        reader.line(&rest[..end], place)?;
        rest = &rest[end + 1..];
    }
    match reader.long_skip() {
        Some(line) => refused(7, line),
        None => Ok(reader.program),
    }
}
