//! The word that the call over two files answers, taken apart.

#[derive(Clone, Copy, Debug, PartialEq, Eq, PartialOrd, Ord, Hash)]
pub enum Covers {
    /// Each outcome of the second program is one of the first.
    Covered,
    /// Not covered; the length of the schedule in front of the output.
    Lacking(u64),
    /// The first file is refused, or the output by 22, with the number and the place.
    Refused(u8, u64),
    /// The second file is refused, with the number and the place.
    SecondRefused(u8, u64),
}

impl Covers {
    /// Reads an answer word. A word that means nothing is an error of the library.
    pub fn of_word(word: u64) -> Covers {
        let low = word & 0xffff_ffff_ffff;
        let number = (word >> 48) as u8;
        match (word >> 56, number) {
            (1, 0) => Covers::Lacking(low),
            (2, 0) if low == 0 => Covers::Covered,
            (3, 1..) => Covers::Refused(number, low),
            (4, 1..) => Covers::SecondRefused(number, low),
            _ => panic!("{word:#018x} is no answer word"),
        }
    }
}
