//! Fences. A fence means what MFENCE means: the own queue is empty before anything behind it steps. It becomes a fetch and add of zero, which
//! under total store order waits for that, reads and writes nothing. Nothing of the program can tell it: not by the register that it
//! changes, which is chosen here, and as little as possible by the location that it reads.
use super::translate::Made;
use super::wrong::Wrongs;
use crate::program::{Instruction, Operand, LOCATIONS, REGISTERS};
use std::cmp::Reverse;
use Instruction::{Assert, FetchAdd, SkipUnless};

/// The code of a thread, and which of its instructions are fences.
type Code = Vec<(Instruction, bool)>;

/// Chooses the register and the location of every fence, or tells that no register is left.
pub fn choose(threads: &mut [&mut Vec<Made>], wrong: &mut Wrongs) {
    let of = |made: &&mut Vec<Made>| made.iter().map(|made| (made.instruction, made.is_fence())).collect();
    let code: Vec<Code> = threads.iter().map(of).collect();
    for (t, thread) in threads.iter_mut().enumerate() {
        for (at, made) in thread.iter_mut().enumerate().filter(|(_, made)| made.is_fence()) {
            match register(&code[t], at) {
                Some(r) => made.instruction = FetchAdd { r, l: location(&code, t), p: Operand::Constant(0) },
                None => wrong.add_at(made.statement, without_register()),
            }
        }
    }
}

fn without_register() -> String {
    format!(
        "a fence needs a register that the thread does not name, or gives another value before it reads it, may fail or ends; \
         none is left: all {REGISTERS} are used"
    )
}

/// A register that a fence at this place may change, the last one that will do: one that no other instruction of the thread names, else one
/// that is given another value behind it in any case.
fn register(code: &Code, at: usize) -> Option<u8> {
    let unnamed = (0..REGISTERS).rev().find(|r| is_unnamed(code, *r));
    unnamed.or_else(|| (0..REGISTERS).rev().find(|r| is_given_anew(code, at + 1, *r)))
}

/// May a fence at this place change this register so that nothing can tell?
pub fn may_change(code: &[(Instruction, bool)], at: usize, r: u8) -> bool {
    is_unnamed(code, r) || is_given_anew(code, at + 1, r)
}

fn is_unnamed(code: &[(Instruction, bool)], r: u8) -> bool {
    !code.iter().any(|(instruction, fence)| !fence && instruction.registers().contains(&r))
}

/// On every path from this place on, is the register given a value before it is read and before the thread can end? A failed assertion ends a
/// thread, and its registers are shown then too.
fn is_given_anew(code: &[(Instruction, bool)], from: usize, r: u8) -> bool {
    let mut given = vec![false; code.len() + 1];
    for (at, (instruction, fence)) in code.iter().enumerate().rev() {
        given[at] = match instruction {
            _ if *fence => given[at + 1],
            _ if instruction.reads(r) => false,
            Assert { .. } => false,
            SkipUnless { n, .. } => given[at + 1] && given.get(at + 1 + *n as usize).copied().unwrap_or(false),
            _ => instruction.target() == Some(r) || given[at + 1],
        };
    }
    given[from]
}

/// The location whose read conflicts with least: the one that the other threads write at the fewest places, of these one that nothing else
/// uses, the last. A location that nothing else uses is written nowhere, so its read conflicts with nothing and the list does not grow.
fn location(code: &[Code], t: usize) -> u8 {
    let all = |l: u8| {
        let uses = code.iter().enumerate().flat_map(|(u, code)| code.iter().map(move |one| (u, one)));
        uses.filter(move |(_, (instruction, fence))| !fence && instruction.location() == Some(l))
    };
    let cost = |l: &u8| (all(*l).filter(|(u, (instruction, _))| *u != t && instruction.may_write()).count(), all(*l).count() > 0);
    (0..LOCATIONS).min_by_key(|l| (cost(l), Reverse(*l))).unwrap_or(0)
}
