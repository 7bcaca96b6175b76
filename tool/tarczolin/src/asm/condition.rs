//! Conditions of the text form, by the two comparisons that there are.
use super::statement::Test;
use crate::program::{Comparison, Operand};

/// That `r` compares so with `p`, or, where it is not `wanted`, that it does not.
#[derive(Clone, Copy, Debug, PartialEq, Eq)]
pub struct Condition {
    pub comparison: Comparison,
    pub r: u8,
    pub p: Operand,
    pub wanted: bool,
}

impl Condition {
    /// What stands in for a condition that cannot be.
    pub const FIRST: Condition = Condition { comparison: Comparison::Equal, r: 0, p: Operand::Constant(0), wanted: true };

    /// None where p is the least constant and the condition is about what is below it. Below a constant is at most the one before it;
    /// below a register is that the register is not at most.
    pub fn of(r: u8, test: Test, p: Operand) -> Option<Condition> {
        let of = |comparison, r, p, wanted| Some(Condition { comparison, r, p, wanted });
        match (test, p) {
            (Test::Equal, _) => of(Comparison::Equal, r, p, true),
            (Test::Unequal, _) => of(Comparison::Equal, r, p, false),
            (Test::AtMost, _) => of(Comparison::AtMost, r, p, true),
            (Test::Above, _) => of(Comparison::AtMost, r, p, false),
            (Test::Below | Test::AtLeast, Operand::Register(other)) => {
                of(Comparison::AtMost, other, Operand::Register(r), test == Test::AtLeast)
            }
            (Test::Below | Test::AtLeast, Operand::Constant(value)) => {
                let before = (value as i32).checked_sub(1)? as u32;
                of(Comparison::AtMost, r, Operand::Constant(before), test == Test::Below)
            }
        }
    }

    /// Values of which r, where it compares so with p, is not all: one where one is enough.
    pub fn other_values(self) -> Vec<Operand> {
        let next = match (self.comparison, self.p) {
            (_, Operand::Register(_)) => None,
            (Comparison::Equal, Operand::Constant(value)) => Some(value.wrapping_add(1)),
            (Comparison::AtMost, Operand::Constant(value)) => (value as i32).checked_add(1).map(|next| next as u32),
        };
        next.map_or(vec![Operand::Constant(0), Operand::Constant(1)], |next| vec![Operand::Constant(next)])
    }
}
