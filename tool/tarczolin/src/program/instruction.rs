//! Instructions, and their words.

#[derive(Clone, Copy, Debug, PartialEq, Eq, PartialOrd, Ord)]
pub enum Operand {
    Constant(u32),
    Register(u8),
}

/// How a skip and an assertion compare a register with an operand: `AtMost` reads both as two's complement.
#[derive(Clone, Copy, Debug, PartialEq, Eq, PartialOrd, Ord)]
pub enum Comparison {
    Equal,
    AtMost,
}

impl Comparison {
    pub fn holds(self, a: u32, b: u32) -> bool {
        match self {
            Comparison::Equal => a == b,
            Comparison::AtMost => a as i32 <= b as i32,
        }
    }

    /// The sign of the text form where it holds, and where it does not.
    pub fn signs(self) -> (&'static str, &'static str) {
        match self {
            Comparison::Equal => ("==", "!="),
            Comparison::AtMost => ("<=", ">"),
        }
    }

    /// A value for the eye, as the comparison reads it.
    pub fn number(self, value: u32) -> String {
        match self {
            Comparison::AtMost if (value as i32) < 0 => format!("-{}", number((value as i32).unsigned_abs())),
            _ => number(value),
        }
    }
}

/// An instruction; `r` is a register, `l` a location. `SkipUnless`: unless `r` compares so with `p`, skip the next `n` instructions.
#[derive(Clone, Copy, Debug, PartialEq, Eq)]
pub enum Instruction {
    Store { l: u8, p: Operand },
    Load { r: u8, l: u8 },
    FetchAdd { r: u8, l: u8, p: Operand },
    CompareSwap { r: u8, l: u8, e: Operand, v: Operand },
    Set { r: u8, p: Operand },
    Add { r: u8, p: Operand },
    SkipUnless { test: Comparison, r: u8, p: Operand, n: u8 },
    Assert { test: Comparison, r: u8, p: Operand },
}

use Instruction::*;

impl Instruction {
    /// The location of an access.
    pub fn location(&self) -> Option<u8> {
        match *self {
            Store { l, .. } | Load { l, .. } | FetchAdd { l, .. } | CompareSwap { l, .. } => Some(l),
            _ => None,
        }
    }

    /// The same at another location, where it is an access.
    pub fn moved(self, to: impl Fn(u8) -> u8) -> Instruction {
        match self {
            Store { l, p } => Store { l: to(l), p },
            Load { r, l } => Load { r, l: to(l) },
            FetchAdd { r, l, p } => FetchAdd { r, l: to(l), p },
            CompareSwap { r, l, e, v } => CompareSwap { r, l: to(l), e, v },
            Set { .. } | Add { .. } | SkipUnless { .. } | Assert { .. } => self,
        }
    }

    /// The registers that it names.
    pub fn registers(&self) -> Vec<u8> {
        let (own, operands) = match *self {
            Store { p, .. } => (None, vec![p]),
            Load { r, .. } => (Some(r), vec![]),
            CompareSwap { r, e, v, .. } => (Some(r), vec![e, v]),
            FetchAdd { r, p, .. } | Set { r, p } | Add { r, p } | SkipUnless { r, p, .. } | Assert { r, p, .. } => {
                (Some(r), vec![p])
            }
        };
        let named = operands.into_iter().filter_map(|p| match p {
            Operand::Register(r) => Some(r),
            Operand::Constant(_) => None,
        });
        own.into_iter().chain(named).collect()
    }

    /// The register that it gives a value, whatever that was before; `Add` reads it.
    pub fn target(&self) -> Option<u8> {
        match *self {
            Load { r, .. } | FetchAdd { r, .. } | CompareSwap { r, .. } | Set { r, .. } | Add { r, .. } => Some(r),
            Store { .. } | SkipUnless { .. } | Assert { .. } => None,
        }
    }

    /// Does it read this register?
    pub fn reads(&self, r: u8) -> bool {
        let named = |p: Operand| p == Operand::Register(r);
        match *self {
            Store { p, .. } | FetchAdd { p, .. } | Set { p, .. } => named(p),
            Load { .. } => false,
            CompareSwap { e, v, .. } => named(e) || named(v),
            Add { r: own, p } | SkipUnless { r: own, p, .. } | Assert { r: own, p, .. } => own == r || named(p),
        }
    }

    /// Can it write its location? Adding zero only reads.
    pub fn may_write(&self) -> bool {
        match *self {
            Store { .. } | CompareSwap { .. } => true,
            FetchAdd { p, .. } => p != Operand::Constant(0),
            _ => false,
        }
    }

    /// Can its thread fail at it?
    pub fn is_assertion(&self) -> bool {
        matches!(self, Assert { .. })
    }

    /// The name of an access, or none for an instruction on registers only.
    pub fn access(&self) -> Option<&'static str> {
        match self {
            Store { .. } => Some("store"),
            Load { .. } => Some("load"),
            FetchAdd { .. } => Some("fetch_add"),
            CompareSwap { .. } => Some("cas"),
            _ => None,
        }
    }
}

/// A number for the eye: decimal, or hexadecimal where that is easier to read.
pub fn number(value: u32) -> String {
    if value < 0x1_0000 {
        value.to_string()
    } else {
        format!("{value:#x}")
    }
}
