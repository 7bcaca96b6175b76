//! The word that `tarczolin_serve` answers, taken apart.

#[derive(Clone, Copy, Debug, PartialEq, Eq, PartialOrd, Ord, Hash)]
pub enum Served {
    /// A schedule for this caller, with the length of the schedule in front of the output.
    Schedule(u8, u64),
    /// No more for this caller.
    NoMore(u8),
    /// Nobody asks.
    Idle,
    /// Refused, with the number and the place.
    Refused(u8, u64),
}

impl Served {
    /// Reads an answer word. A word that means nothing is an error of the library.
    pub fn of_word(word: u64) -> Served {
        let low = word & 0xffff_ffff_ffff;
        let (number, caller, length) = ((word >> 48) as u8, (low >> 40) as u8, low & 0xff_ffff_ffff);
        match (word >> 56, number, length) {
            (1, 0, _) => Served::Schedule(caller, length),
            (2, 0, 0) => Served::NoMore(caller),
            (5, 0, 0) if caller == 0 => Served::Idle,
            (3, 1.., _) => Served::Refused(number, low),
            _ => panic!("{word:#018x} is no answer word"),
        }
    }
}
