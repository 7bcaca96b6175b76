//! Frames: what one line of a program file says.
use super::instruction::{Comparison, Instruction, Operand};
use super::limits::{LOCATIONS, LONGEST_SKIP, REGISTERS};
use Instruction::*;

#[derive(Clone, Debug, PartialEq, Eq)]
pub enum Frame {
    Thread,
    Instruction(Instruction),
    /// Threads declared alike.
    Alike(Vec<u8>),
    /// A location and the value that it starts with.
    Start(u8, u32),
}

/// The five bytes of an operand.
fn of_operand(p: Operand) -> Vec<u8> {
    let (kind, value) = match p {
        Operand::Constant(value) => (0, value),
        Operand::Register(r) => (1, r as u32),
    };
    [vec![kind], value.to_be_bytes().to_vec()].concat()
}

/// The first byte of a skip or an assertion, from that of the one that asks for equality; and back.
fn tested(equal: u8, test: Comparison) -> u8 {
    match test {
        Comparison::Equal => equal,
        Comparison::AtMost => equal + 2,
    }
}

fn test_of(kind: u8) -> Comparison {
    match kind {
        0x24 | 0x25 => Comparison::AtMost,
        _ => Comparison::Equal,
    }
}

impl Frame {
    pub fn bytes(&self) -> Vec<u8> {
        let instruction = match self {
            Frame::Thread => return vec![0x01],
            Frame::Alike(members) => return [vec![0x02], members.clone()].concat(),
            Frame::Start(l, value) => return [vec![0x03, *l], value.to_be_bytes().to_vec()].concat(),
            Frame::Instruction(instruction) => *instruction,
        };
        match instruction {
            Store { l, p } => [vec![0x10, l], of_operand(p)].concat(),
            Load { r, l } => vec![0x11, r, l],
            FetchAdd { r, l, p } => [vec![0x12, r, l], of_operand(p)].concat(),
            CompareSwap { r, l, e, v } => [vec![0x13, r, l], of_operand(e), of_operand(v)].concat(),
            Set { r, p } => [vec![0x20, r], of_operand(p)].concat(),
            Add { r, p } => [vec![0x21, r], of_operand(p)].concat(),
            SkipUnless { test, r, p, n } => [vec![tested(0x22, test), r], of_operand(p), vec![n]].concat(),
            Assert { test, r, p } => [vec![tested(0x23, test), r], of_operand(p)].concat(),
        }
    }

    /// The same with its location moved, if it names one.
    pub fn moved(self, to: impl Fn(u8) -> u8) -> Frame {
        match self {
            Frame::Start(l, value) => Frame::Start(to(l), value),
            Frame::Instruction(instruction) => Frame::Instruction(instruction.moved(to)),
            Frame::Thread | Frame::Alike(_) => self,
        }
    }

    /// The frame of these bytes, or none: of no kind, or a field out of range.
    pub fn of_bytes(bytes: &[u8]) -> Option<Frame> {
        let (kind, rest) = bytes.split_first()?;
        let mut fields = Fields(rest);
        let frame = match *kind {
            0x01 => Frame::Thread,
            0x02 => Frame::Alike(std::mem::take(&mut fields.0).to_vec()),
            0x03 => Frame::Start(fields.location()?, fields.word()?),
            kind => Frame::Instruction(fields.instruction(kind)?),
        };
        fields.0.is_empty().then_some(frame)
    }
}

/// The bytes of a frame behind its first that are not read yet.
struct Fields<'a>(&'a [u8]);

impl Fields<'_> {
    fn instruction(&mut self, kind: u8) -> Option<Instruction> {
        Some(match kind {
            0x10 => Store { l: self.location()?, p: self.operand()? },
            0x11 => Load { r: self.register()?, l: self.location()? },
            0x12 => FetchAdd { r: self.register()?, l: self.location()?, p: self.operand()? },
            0x13 => CompareSwap { r: self.register()?, l: self.location()?, e: self.operand()?, v: self.operand()? },
            0x20 => Set { r: self.register()?, p: self.operand()? },
            0x21 => Add { r: self.register()?, p: self.operand()? },
            0x22 | 0x24 => SkipUnless { test: test_of(kind), r: self.register()?, p: self.operand()?, n: self.skip()? },
            0x23 | 0x25 => Assert { test: test_of(kind), r: self.register()?, p: self.operand()? },
            _ => return None,
        })
    }

    fn byte(&mut self) -> Option<u8> {
        let (first, rest) = self.0.split_first()?;
        self.0 = rest;
        Some(*first)
    }

    fn register(&mut self) -> Option<u8> {
        self.byte().filter(|r| *r < REGISTERS)
    }

    fn location(&mut self) -> Option<u8> {
        self.byte().filter(|l| *l < LOCATIONS)
    }

    fn skip(&mut self) -> Option<u8> {
        self.byte().filter(|n| (1..=LONGEST_SKIP).contains(n))
    }

    /// Four bytes, most significant first.
    fn word(&mut self) -> Option<u32> {
        let (value, rest) = self.0.split_at_checked(4)?;
        self.0 = rest;
        Some(u32::from_be_bytes(value.try_into().ok()?))
    }

    fn operand(&mut self) -> Option<Operand> {
        let kind = self.byte()?;
        let value = self.word()?;
        match kind {
            0 => Some(Operand::Constant(value)),
            1 if value < REGISTERS as u32 => Some(Operand::Register(value as u8)),
            _ => None,
        }
    }
}
