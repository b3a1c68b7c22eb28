//! A set of small numbers that hands out its least member in constant time:
//! one bit for each number, and one bit above for each word that is not empty.

#[derive(Default)]
pub struct MinSet {
    words: Vec<u64>,
    tops: Vec<u64>,
}

impl MinSet {
    /// Empties the set and makes room for 0..len.
    pub fn reset(&mut self, len: usize) {
        let words = len.div_ceil(64);
        self.words.clear();
        self.words.resize(words, 0);
        self.tops.clear();
        self.tops.resize(words.div_ceil(64), 0);
    }

    pub fn insert(&mut self, i: usize) {
        let w = i / 64;
        self.words[w] |= 1 << (i % 64);
        self.tops[w / 64] |= 1 << (w % 64);
    }

    pub fn remove(&mut self, i: usize) {
        let w = i / 64;
        self.words[w] &= !(1 << (i % 64));
        if self.words[w] == 0 {
            self.tops[w / 64] &= !(1 << (w % 64));
        }
    }

    pub fn put(&mut self, i: usize, member: bool) {
        if member {
            self.insert(i);
        } else {
            self.remove(i);
        }
    }

    pub fn first(&self) -> Option<usize> {
        let top = self.tops.iter().position(|&t| t != 0)?;
        let w = 64 * top + self.tops[top].trailing_zeros() as usize;
        Some(64 * w + self.words[w].trailing_zeros() as usize)
    }
}
