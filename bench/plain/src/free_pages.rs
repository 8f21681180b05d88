//! Which pages are free: a bit for each page, and a bit for each word that has one set.

const BITS: usize = u64::BITS as usize;

pub struct FreePages {
    words: Vec<u64>,
    marked: Vec<u64>,
}

impl FreePages {
    /// So many pages, all of them free.
    pub fn all(count: usize) -> Self {
        let mut free = FreePages {
            words: vec![0; count.div_ceil(BITS)],
            marked: vec![0; count.div_ceil(BITS * BITS)],
        };
        (0..count).for_each(|page| free.insert(page));
        free
    }

    pub fn insert(&mut self, page: usize) {
        let word = page / BITS;
        self.words[word] |= 1 << (page % BITS);
        self.marked[word / BITS] |= 1 << (word % BITS);
    }

    pub fn remove(&mut self, page: usize) {
        let word = page / BITS;
        self.words[word] &= !(1 << (page % BITS));
        if self.words[word] == 0 {
            self.marked[word / BITS] &= !(1 << (word % BITS));
        }
    }

    /// The first free page from `start` on.
    pub fn first_from(&self, start: usize) -> Option<usize> {
        let word = start / BITS;
        let rest = self.words[word] & (u64::MAX << (start % BITS));
        if rest != 0 {
            return Some(first_of(word, rest));
        }
        let word = self.marked_from(word + 1)?;
        Some(first_of(word, self.words[word]))
    }

    /// The first word from this one on with a free page.
    fn marked_from(&self, word: usize) -> Option<usize> {
        let at = word / BITS;
        let rest = self.marked.get(at)? & (u64::MAX << (word % BITS));
        if rest != 0 {
            return Some(first_of(at, rest));
        }
        let at = (at + 1..self.marked.len()).find(|&at| self.marked[at] != 0)?;
        Some(first_of(at, self.marked[at]))
    }
}

/// The number of the lowest bit of a word that has one.
fn first_of(word: usize, bits: u64) -> usize {
    word * BITS + bits.trailing_zeros() as usize
}
