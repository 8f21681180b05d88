//! The table cache: eight slots over the store below, and a hand that goes round.

use crate::store::{write_back, Block, Fault, Store, BLOCK_BYTES};

const SLOTS: usize = 8;

pub struct Table<S> {
    pub below: S,
    blocks: [Option<u32>; SLOTS],
    contents: [Block; SLOTS],
    hand: usize,
}

impl<S: Store> Table<S> {
    pub fn over(below: S) -> Self {
        Table {
            below,
            blocks: [None; SLOTS],
            contents: [[0; BLOCK_BYTES]; SLOTS],
            hand: 0,
        }
    }

    fn slot_of(&self, block: u32) -> Option<usize> {
        self.blocks.iter().position(|&held| held == Some(block))
    }

    fn empty_slot(&self) -> Option<usize> {
        self.blocks.iter().position(Option::is_none)
    }

    /// Empties a slot, and writes back what was in it.
    fn evict(&mut self, i: usize) -> Result<(), Fault> {
        match self.blocks[i].take() {
            Some(block) => write_back(&mut self.below, block, &self.contents[i]),
            None => Ok(()),
        }
    }
}

impl<S: Store> Store for Table<S> {
    fn count(&self) -> u32 {
        self.below.count()
    }

    fn power(&self) -> bool {
        self.below.power()
    }

    fn read_block(&self, block: u32) -> Result<&Block, Fault> {
        self.check_block(block)?;
        match self.slot_of(block) {
            Some(i) => Ok(&self.contents[i]),
            None => self.below.read_block(block),
        }
    }

    fn put_block(&mut self, block: u32, content: &Block) -> Result<(), Fault> {
        self.check_block(block)?;
        let i = match self.slot_of(block).or_else(|| self.empty_slot()) {
            Some(i) => i,
            None => {
                let i = self.hand;
                self.evict(i)?;
                self.hand = (i + 1) % SLOTS;
                i
            }
        };
        self.blocks[i] = Some(block);
        self.contents[i] = *content;
        Ok(())
    }

    fn force_block(&mut self, block: u32) -> Result<(), Fault> {
        self.check_block(block)?;
        if let Some(i) = self.slot_of(block) {
            self.evict(i)?;
        }
        self.below.force_block(block)
    }

    fn flush(&mut self) -> Result<(), Fault> {
        self.check_power()?;
        (0..SLOTS).try_for_each(|i| self.evict(i))?;
        self.below.flush()
    }
}
