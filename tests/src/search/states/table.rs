//! A table of keys, each with two numbers behind it. A slot may be overwritten at any time: what is found is right whatever is lost.
use super::Numbers;

pub struct Table {
    words: Vec<u64>,
    width: usize,
    slots: usize,
}

impl Table {
    /// A table of so many slots; none is filled yet.
    pub fn new(slots: usize) -> Table {
        Table { words: Vec::new(), width: 0, slots }
    }

    /// Empties the table, for keys of so many words.
    pub fn open(&mut self, width: usize) {
        self.width = width;
        self.words.clear();
        self.words.resize(self.slots * (width + 2), 0);
    }

    /// The slot of a key, by its words mixed.
    fn slot(&self, key: &[u64]) -> usize {
        let mut hash = 0u64;
        for word in key {
            hash = hash.wrapping_add(hash >> 32).wrapping_add(*word).wrapping_mul(0x9e37_79b9_7f4a_7c15);
        }
        (((hash >> 32) * self.slots as u64) >> 32) as usize * (self.width + 2)
    }

    /// What is known of a key. Its first word is never 0, so an empty slot is nobody's.
    pub fn look(&self, key: &[u64]) -> Option<Numbers> {
        let at = self.slot(key);
        let slot = self.words.get(at..at + self.width + 2)?;
        (slot[..self.width] == *key).then(|| Numbers { listed: slot[self.width], failing: slot[self.width + 1] })
    }

    pub fn put(&mut self, key: &[u64], numbers: Numbers) {
        let (at, width) = (self.slot(key), self.width);
        let Some(slot) = self.words.get_mut(at..at + width + 2) else { return };
        slot[..width].copy_from_slice(key);
        slot[width] = numbers.listed;
        slot[width + 1] = numbers.failing;
    }
}
