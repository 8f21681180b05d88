//! The queue cache: sixteen places over the store below, in order of arrival.

use crate::store::{write_back, Block, Fault, Store, BLOCK_BYTES};

const PLACES: usize = 16;

/// A ring: the oldest entry stands at `start`, and `len` entries follow one another.
pub struct Queue<S> {
    pub below: S,
    blocks: [u32; PLACES],
    contents: [Block; PLACES],
    start: usize,
    len: usize,
}

impl<S: Store> Queue<S> {
    pub fn over(below: S) -> Self {
        Queue {
            below,
            blocks: [0; PLACES],
            contents: [[0; BLOCK_BYTES]; PLACES],
            start: 0,
            len: 0,
        }
    }

    fn place(&self, i: usize) -> usize {
        (self.start + i) % PLACES
    }

    /// The place of the block's newest entry.
    fn newest(&self, block: u32) -> Option<usize> {
        (0..self.len)
            .rev()
            .map(|i| self.place(i))
            .find(|&place| self.blocks[place] == block)
    }

    fn evict_oldest(&mut self) -> Result<(), Fault> {
        let oldest = self.start;
        self.start = self.place(1);
        self.len -= 1;
        write_back(&mut self.below, self.blocks[oldest], &self.contents[oldest])
    }
}

impl<S: Store> Store for Queue<S> {
    fn count(&self) -> u32 {
        self.below.count()
    }

    fn power(&self) -> bool {
        self.below.power()
    }

    fn read_block(&self, block: u32) -> Result<&Block, Fault> {
        self.check_block(block)?;
        match self.newest(block) {
            Some(place) => Ok(&self.contents[place]),
            None => self.below.read_block(block),
        }
    }

    fn put_block(&mut self, block: u32, content: &Block) -> Result<(), Fault> {
        self.check_block(block)?;
        if self.len == PLACES {
            self.evict_oldest()?;
        }
        let place = self.place(self.len);
        self.blocks[place] = block;
        self.contents[place] = *content;
        self.len += 1;
        Ok(())
    }

    fn force_block(&mut self, block: u32) -> Result<(), Fault> {
        self.check_block(block)?;
        while self.newest(block).is_some() {
            self.evict_oldest()?;
        }
        self.below.force_block(block)
    }

    fn flush(&mut self) -> Result<(), Fault> {
        self.check_power()?;
        while self.len > 0 {
            self.evict_oldest()?;
        }
        self.below.flush()
    }
}
