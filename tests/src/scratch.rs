//! A scratch that is lent to a call: however long it is and whatever it holds, an answer leaves zeros in it, a refusal leaves it as it was, and the
//! words around it stay.
use crate::calls::Answer;
use crate::random::Random;

/// Lengths that have something about them: none, too short for any key, just long enough for one, and more.
pub const SHORT: [usize; 7] = [0, 1, 20, 21, 29, 64, 1_000];
pub const LONG: usize = 1_000_000;

/// So many words on each side of a scratch belong to somebody else.
const AROUND: usize = 4;

/// Words that are lent, with somebody else's around them; filled anew from the same random ones.
pub struct Scratch {
    random: Vec<u64>,
    lent: Vec<u64>,
}

impl Scratch {
    pub fn new(random: &mut Random, words: usize) -> Scratch {
        let all: Vec<u64> = (0..words + 2 * AROUND).map(|_| random.word()).collect();
        Scratch { lent: all.clone(), random: all }
    }

    /// Makes a call with the scratch. It answers so; then the scratch holds zeros, or what it held.
    pub fn held(&mut self, wanted: Answer, call: impl FnOnce(&mut [u64]) -> Answer, file: &[u8]) {
        let end = self.random.len() - AROUND;
        self.lent.copy_from_slice(&self.random);
        assert_eq!(call(&mut self.lent[AROUND..end]), wanted, "{} words: {}", end - AROUND, file.escape_ascii());
        let kept = matches!(wanted, Answer::Refused(..));
        let zeros = self.lent[AROUND..end].iter().all(|word| *word == 0);
        let same = self.lent[AROUND..end] == self.random[AROUND..end];
        assert!(
            if kept { same } else { zeros },
            "the scratch of {} words behind {wanted:?}: {}",
            end - AROUND,
            file.escape_ascii()
        );
        let around = self.lent[..AROUND] == self.random[..AROUND] && self.lent[end..] == self.random[end..];
        assert!(around, "the words around a scratch of {} words: {}", end - AROUND, file.escape_ascii());
    }
}
