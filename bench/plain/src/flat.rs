//! The flat medium: block after block.

use crate::medium::{Layout, Medium};
use crate::store::{Block, BLOCK_BYTES};

pub struct Flat {
    blocks: Vec<Block>,
}

/// A flat medium of zeros.
pub fn flat(count: u32, grant: u32) -> Medium<Flat> {
    let blocks = vec![[0; BLOCK_BYTES]; count as usize];
    Medium::over(Flat { blocks }, count, grant)
}

impl Layout for Flat {
    fn content(&self, block: u32) -> &Block {
        &self.blocks[block as usize]
    }

    fn store(&mut self, block: u32, content: &Block) {
        self.blocks[block as usize] = *content;
    }
}
