//! A medium of any layout, which makes as many block stores as it was granted.

use crate::store::{Block, Fault, Store};

pub trait Layout {
    fn content(&self, block: u32) -> &Block;
    fn store(&mut self, block: u32, content: &Block);
}

pub struct Medium<L> {
    layout: L,
    count: u32,
    grant: u32,
}

impl<L> Medium<L> {
    pub fn over(layout: L, count: u32, grant: u32) -> Self {
        Medium {
            layout,
            count,
            grant,
        }
    }

    pub fn grant(&self) -> u32 {
        self.grant
    }
}

impl<L: Layout> Medium<L> {
    /// What the medium has for a block, with power or without.
    pub fn on_medium(&self, block: u32) -> &Block {
        self.layout.content(block)
    }
}

impl<L: Layout> Store for Medium<L> {
    fn count(&self) -> u32 {
        self.count
    }

    fn power(&self) -> bool {
        self.grant > 0
    }

    fn read_block(&self, block: u32) -> Result<&Block, Fault> {
        self.check_block(block)?;
        Ok(self.layout.content(block))
    }

    fn put_block(&mut self, block: u32, content: &Block) -> Result<(), Fault> {
        self.check_block(block)?;
        self.layout.store(block, content);
        self.grant -= 1;
        self.check_power()
    }

    fn force_block(&mut self, block: u32) -> Result<(), Fault> {
        self.check_block(block)
    }

    fn flush(&mut self) -> Result<(), Fault> {
        self.check_power()
    }
}
