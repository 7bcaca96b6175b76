//! Memory that is lent to a call by states, while another thread may look how much of it is in use.
//!
//! Rust holds no reference to the words, only a pointer. The call writes them, code that Rust's compiler does not see; whoever looks reads
//! them one by one, each by a volatile read of eight aligned bytes. A look can meet an entry that is half written. So it is sound enough
//! for a line of progress, which is all that asks for it, and never for an answer: answers come from the call alone.
use crate::{raw, tso, Answer};
use std::alloc::{alloc_zeroed, dealloc, Layout};
use std::ptr::NonNull;
use std::sync::atomic::{AtomicBool, Ordering};

pub struct Scratch {
    words: NonNull<u64>,
    length: usize,
    /// Some call has it.
    lent: AtomicBool,
}

// safe: the words belong to the one call that they are lent to, which `lent` sees to; all else that reads them is `seen`
unsafe impl Send for Scratch {}
unsafe impl Sync for Scratch {}

/// How many states are remembered, and the share of the memory that they take.
#[derive(Clone, Copy, Debug, PartialEq)]
pub struct Seen {
    pub states: usize,
    pub share: f64,
}

impl Seen {
    /// From this share on so few slots are empty that they no longer tell how many states were put.
    const FULL: f64 = 0.98;

    /// About how many states were visited, as far as that shows, and whether it was more. Each is put into a slot that its key's hash names, and
    /// takes the place of what stood there: of m slots v states leave a share of about e to the power of -v / m empty.
    pub fn visited(&self) -> (usize, bool) {
        if self.share <= 0.0 {
            return (self.states, false);
        }
        let slots = self.states as f64 / self.share;
        let share = self.share.min(Seen::FULL);
        ((-slots * (1.0 - share).ln()).round() as usize, self.share >= Seen::FULL)
    }
}

fn divisor(a: usize, b: usize) -> usize {
    if b == 0 {
        a
    } else {
        divisor(b, a % b)
    }
}

/// Whether a word is the first of a key: its highest bit, and below it the late set and what is left of each thread, 42 bits. Two values in
/// one word look so only where the second is 80000000 or little more.
fn begins(word: u64) -> bool {
    word >> 42 == 1 << 21
}

impl Scratch {
    /// So many words, if they can be had.
    pub fn new(length: usize) -> Option<Scratch> {
        let lent = AtomicBool::new(false);
        if length == 0 {
            return Some(Scratch { words: NonNull::dangling(), length, lent });
        }
        // safe: there is at least one word
        let words = unsafe { alloc_zeroed(Layout::array::<u64>(length).ok()?) };
        Some(Scratch { words: NonNull::new(words.cast())?, length, lent })
    }

    /// How many words there are.
    pub fn words(&self) -> usize {
        self.length
    }

    fn lend(&self, call: impl FnOnce(*mut u64, usize) -> u64) -> Answer {
        assert!(!self.lent.swap(true, Ordering::Acquire), "a scratch is lent to one call at a time");
        let word = call(self.words.as_ptr(), self.length);
        self.lent.store(false, Ordering::Release);
        Answer::of_word(word)
    }

    /// As `count_with`.
    pub fn count(&self, file: &[u8], listed: &mut u64, failing: &mut u64) -> Answer {
        // safe: the call reads only the bytes of the slice and writes only the two words and those of the scratch, which no other call has
        self.lend(|words, length| unsafe { raw::tarczolin_count_with(file.as_ptr(), file.len(), listed, failing, words, length) })
    }

    /// As `violation_with`.
    pub fn violation(&self, file: &[u8], out: &mut [u8]) -> Answer {
        // safe: the call reads only the bytes of the first slice and writes only those of the second and the scratch, which no other call has
        self.lend(|words, length| unsafe {
            raw::tarczolin_violation_with(file.as_ptr(), file.len(), out.as_mut_ptr(), out.len(), words, length)
        })
    }

    /// As `outcomes`.
    pub fn outcomes(&self, file: &[u8], from: u64, out: &mut [u8]) -> Answer {
        // safe: as `violation`
        self.lend(|words, length| unsafe {
            raw::tarczolin_outcomes(file.as_ptr(), file.len(), from, out.as_mut_ptr(), out.len(), words, length)
        })
    }

    /// As `tso::outcomes`.
    pub fn tso_outcomes(&self, file: &[u8], from: u64, out: &mut [u8]) -> Answer {
        // safe: as `violation`
        self.lend(|words, length| unsafe {
            tso::tarczolin_tso_outcomes(file.as_ptr(), file.len(), from, out.as_mut_ptr(), out.len(), words, length)
        })
    }

    /// As `tso::count_with`.
    pub fn tso_count(&self, file: &[u8], listed: &mut u64, failing: &mut u64) -> Answer {
        // safe: as `count`
        self.lend(|words, length| unsafe {
            tso::tarczolin_tso_count_with(file.as_ptr(), file.len(), listed, failing, words, length)
        })
    }

    /// As `tso::violation_with`.
    pub fn tso_violation(&self, file: &[u8], out: &mut [u8]) -> Answer {
        // safe: as `violation`
        self.lend(|words, length| unsafe {
            tso::tarczolin_tso_violation_with(file.as_ptr(), file.len(), out.as_mut_ptr(), out.len(), words, length)
        })
    }

    /// How full it is under sequential consistency, for the eye. How many words an entry has is not told; every key begins at a multiple of that number.
    pub fn seen(&self) -> Seen {
        // safe: the word is one of those that were allocated
        let word = |place: &usize| unsafe { self.words.as_ptr().add(*place).read_volatile() };
        let begun = (0..self.length).filter(|place| begins(word(place)));
        let (states, width) = begun.fold((0, 0), |(states, width), place| (states + 1, divisor(width, place)));
        Seen { states, share: (states * width) as f64 / self.length.max(1) as f64 }
    }
}

impl Drop for Scratch {
    fn drop(&mut self) {
        if self.length > 0 {
            // safe: allocated with the same layout, and no call has it, since a call borrows it
            unsafe { dealloc(self.words.as_ptr().cast(), Layout::array::<u64>(self.length).expect("as it was allocated")) }
        }
    }
}

#[cfg(test)]
mod tests {
    use super::*;

    /// Entries of ten words at three of a hundred places.
    #[test]
    fn states_and_their_share() {
        let scratch = Scratch::new(1000).unwrap();
        assert_eq!((scratch.words(), scratch.seen()), (1000, Seen { states: 0, share: 0.0 }));
        for (place, word) in [(20, 1 << 63 | 5), (24, u64::MAX), (50, 1 << 63 | 0x3ff << 32), (70, 1 << 63)] {
            // safe: the place is one of a thousand, and no call has the words
            unsafe { scratch.words.as_ptr().add(place).write(word) }
        }
        assert_eq!(scratch.seen(), Seen { states: 3, share: 0.03 });
    }

    /// By chance half of the slots are taken by 0.69 as many states; few take each one of its own.
    #[test]
    fn about_so_many_were_visited() {
        assert_eq!(Seen { states: 0, share: 0.0 }.visited(), (0, false));
        assert_eq!(Seen { states: 10, share: 0.001 }.visited(), (10, false));
        assert_eq!(Seen { states: 1000, share: 0.5 }.visited(), (1386, false));
        assert_eq!(Seen { states: 1000, share: 1.0 }.visited(), (3912, true));
    }

    /// Behind a call there are zeros, and a scratch of no words is one.
    #[test]
    fn nothing_is_kept() {
        let file = "01\n1200000000000001\n1200000000000001\n1200000000000001\n".repeat(3);
        for length in [0, 1, 500] {
            let (scratch, mut listed, mut failing) = (Scratch::new(length).unwrap(), 0, 0);
            assert_eq!(scratch.count(file.as_bytes(), &mut listed, &mut failing), Answer::Answered(0));
            assert_eq!((listed, failing, scratch.seen().states), (1680, 0, 0));
            assert_eq!(scratch.violation(file.as_bytes(), &mut [0; 24]), Answer::None);
        }
        assert!(Scratch::new(usize::MAX).is_none());
    }
}
