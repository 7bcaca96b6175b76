//! The word that every call answers, taken apart.

#[derive(Clone, Copy, Debug, PartialEq, Eq, PartialOrd, Ord, Hash)]
pub enum Answer {
    /// Answered; the length of the answer in bytes, 0 where there is none; of rows their number; of `force` a step plus 1, or 0.
    Answered(u64),
    /// No more, none, no, or robust.
    None,
    /// Refused, with the number and the place.
    Refused(u8, u64),
}

impl Answer {
    /// Reads an answer word. A word that means nothing is an error of the library.
    pub fn of_word(word: u64) -> Answer {
        let low = word & 0xffff_ffff_ffff;
        let number = (word >> 48) as u8;
        match (word >> 56, number) {
            (1, 0) => Answer::Answered(low),
            (2, 0) if low == 0 => Answer::None,
            (3, 1..) => Answer::Refused(number, low),
            _ => panic!("{word:#018x} is no answer word"),
        }
    }
}
