//! From statements to the instructions there are. What takes more than one instruction changes no register.
use super::condition::Condition;
use super::resolve::Code;
use super::statement::{Kind, Statement};
use crate::program::{Comparison, Instruction, Operand};
use Instruction::{Assert, SkipUnless};

/// An instruction, and the statement that it is made of.
pub struct Made<'a> {
    pub statement: &'a Statement,
    pub instruction: Instruction,
}

/// What stands for a fence until its register and its location are chosen.
const STAND_IN: Instruction = Instruction::FetchAdd { r: 0, l: 0, p: Operand::Constant(0) };

impl Made<'_> {
    pub fn is_fence(&self) -> bool {
        self.statement.kind == Kind::Fence
    }
}

/// The instructions of a thread, its fences kept or left out. Jumps go forward, so that behind a statement all is translated before it.
pub fn instructions<'a>(code: &[(&'a Statement, Code)], fences: bool) -> Vec<Made<'a>> {
    let mut made: Vec<Vec<Instruction>> = vec![Vec::new(); code.len()];
    for (at, (_, one)) in code.iter().enumerate().rev() {
        let to = match one {
            Code::If { to, .. } | Code::Goto(to) => *to,
            _ => at + 1,
        };
        let distance = made[at + 1..to].iter().map(Vec::len).sum();
        made[at] = if *one == Code::Fence && !fences { Vec::new() } else { translated(*one, distance) };
    }
    let of = |((statement, _), all): (&(&'a Statement, Code), Vec<Instruction>)| {
        let statement = *statement;
        all.into_iter().map(move |instruction| Made { statement, instruction }).collect::<Vec<_>>()
    };
    code.iter().zip(made).flat_map(of).collect()
}

/// One statement; a jump goes over so many instructions behind it.
fn translated(code: Code, distance: usize) -> Vec<Instruction> {
    match code {
        Code::Plain(instruction) => vec![instruction],
        Code::Assert(Condition { comparison: test, r, p, wanted: true }) => vec![Assert { test, r, p }],
        Code::Assert(condition) => guarded(condition, failing(condition)),
        Code::Fail => failing(NOTHING),
        Code::Fence => vec![STAND_IN],
        Code::If { .. } | Code::Goto(_) if distance == 0 => Vec::new(),
        Code::If { condition, .. } if condition.wanted => guarded(condition, jump(condition, distance)),
        Code::If { condition, .. } => vec![unless(condition, distance)],
        Code::Goto(_) => jump(NOTHING, distance),
    }
}

/// What is known of a register where nothing is: it equals itself.
const NOTHING: Condition = Condition { comparison: Comparison::Equal, r: 0, p: Operand::Register(0), wanted: true };

/// A skip unless the comparison holds. More than 15 is too long for a thread, and is told as such.
fn unless(Condition { comparison: test, r, p, .. }: Condition, distance: usize) -> Instruction {
    SkipUnless { test, r, p, n: distance.min(15) as u8 }
}

/// These instructions where the comparison holds, else nothing.
fn guarded(condition: Condition, inner: Vec<Instruction>) -> Vec<Instruction> {
    [vec![unless(condition, inner.len())], inner].concat()
}

/// A jump that is always taken where the comparison holds: r is not all of the other values.
fn jump(condition: Condition, distance: usize) -> Vec<Instruction> {
    let values = condition.other_values();
    let behind = values.len() - 1;
    let skip = |(k, p): (usize, &Operand)| {
        unless(Condition { comparison: Comparison::Equal, p: *p, ..condition }, distance + behind - k)
    };
    values.iter().enumerate().map(skip).collect()
}

/// Assertions of which one fails where the comparison holds.
fn failing(condition: Condition) -> Vec<Instruction> {
    let assert = |p| Assert { test: Comparison::Equal, r: condition.r, p };
    condition.other_values().into_iter().map(assert).collect()
}
