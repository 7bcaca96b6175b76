//! Memory that is lent to a call, in which it remembers states. Its answer does not depend on how much that is, only its time.
use crate::error::Error;
use crate::model::Model;
use crate::program::{Instruction, Program};
use std::ffi::OsStr;
use tarczolin_sys::Scratch;

/// A list of so few accesses is sooner walked.
const FEW: usize = 8;
/// At most so many bytes where nothing else is said.
const MOST: usize = 16 << 20;
/// So many words for each way in which the threads can stand at their accesses: sixteen states with keys of the greatest width.
const EACH: usize = 16 * 20;

/// So many words have room for some thousands of outcomes.
const OUTCOMES: usize = 1 << 18;

/// At most so many words are lent.
#[derive(Clone, Copy, Debug, PartialEq, Eq)]
pub struct Memory(usize);

impl Default for Memory {
    fn default() -> Memory {
        Memory(MOST / 8)
    }
}

impl Memory {
    /// So many bytes, by the word behind an option or in a variable of this name.
    pub fn of_word(name: &str, word: &OsStr) -> Result<Memory, Error> {
        let bytes = word.to_str().and_then(|word| word.parse::<usize>().ok());
        let wrong = || Error::usage(format!("{name} takes a number of bytes, 0 for none, not {}", word.to_string_lossy()));
        bytes.map(|bytes| Memory(bytes / 8)).ok_or_else(wrong)
    }

    /// No more words than can be of use for a program: none where its list is sooner walked than its states are remembered, and else so
    /// many that clearing them costs nothing. Under total store order a thread stands at an access, and some of its stores are in memory.
    pub fn words(self, model: Model, program: &Program) -> usize {
        let accesses = program.threads.iter().flatten().filter(|i| i.access().is_some()).count();
        if accesses <= FEW {
            return 0;
        }
        let stands = |code: &Vec<Instruction>| {
            let accesses = code.iter().filter(|i| i.access().is_some()).count();
            let stores = code.iter().filter(|i| matches!(i, Instruction::Store { .. })).count();
            (accesses + 1) * if model == Model::Tso { stores + 1 } else { 1 }
        };
        let places = program.threads.iter().map(stands).fold(1usize, |all, places| all.saturating_mul(places));
        places.saturating_mul(EACH).min(self.0)
    }

    /// So many words are lent to a call that remembers outcomes too: these need room whatever the program's accesses are.
    pub fn outcome_words(self, model: Model, program: &Program) -> usize {
        self.words(model, program).max(OUTCOMES).min(self.0)
    }

    /// What is lent to such a call, as much of it as can be had.
    pub fn for_outcomes(self, model: Model, program: &Program) -> Scratch {
        had(self.outcome_words(model, program))
    }

    /// Is there none at all?
    pub fn is_none(self) -> bool {
        self.0 == 0
    }

    /// The same as what is lent, where another thread may look how full it is.
    pub fn looked_at(self, model: Model, program: &Program) -> Scratch {
        had(self.words(model, program))
    }

    /// What is lent for a program: as much of it as can be had.
    pub fn lent(self, model: Model, program: &Program) -> Vec<u64> {
        Memory::had(self.words(model, program))
    }

    /// So many words, or as many of them as can be had.
    pub fn had(mut words: usize) -> Vec<u64> {
        let mut lent = Vec::new();
        while lent.try_reserve_exact(words).is_err() {
            words /= 2;
        }
        lent.resize(words, 0);
        lent
    }
}

/// The same where another thread may look how full it is.
fn had(mut words: usize) -> Scratch {
    loop {
        match Scratch::new(words) {
            Some(scratch) => return scratch,
            None => words /= 2,
        }
    }
}

#[cfg(test)]
mod tests {
    use super::*;

    fn program(text: &str) -> Program {
        Program::of_accepted(text.replace(' ', "\n").as_bytes())
    }

    #[test]
    fn by_the_accesses() {
        let few = program(&format!("01 {}", "110000 ".repeat(4)).repeat(2));
        let nine = program(&format!("01 {}", "110000 ".repeat(3)).repeat(3));
        let most = program(&format!("01 {}", "110000 ".repeat(4)).repeat(6));
        let all = Memory::default();
        assert_eq!([&few, &nine, &most].map(|program| all.lent(Model::Sc, program).len()), [0, 64 * 320, MOST / 8]);
        let stored = program(&format!("01 {}01 {}", "10000000000001 ".repeat(2), "110000 ".repeat(7)));
        assert_eq!([Model::Sc, Model::Tso].map(|model| all.lent(model, &stored).len()), [24 * 320, 72 * 320]);
        assert_eq!([Model::Sc, Model::Tso].map(|model| all.lent(model, &few).len()), [0, 0]);
        assert_eq!([&few, &most].map(|program| all.for_outcomes(Model::Sc, program).words()), [OUTCOMES, MOST / 8]);
        assert_eq!(Memory::of_word("--memory", OsStr::new("80")).unwrap().for_outcomes(Model::Sc, &few).words(), 10);
        assert_eq!(Memory::of_word("--memory", OsStr::new("1001")).unwrap().lent(Model::Sc, &most).len(), 125);
        assert_eq!(Memory::of_word("--memory", OsStr::new("0")).unwrap().lent(Model::Sc, &most).len(), 0);
        assert!(Memory::of_word("--memory", OsStr::new("16M")).is_err());
    }
}
