//! Which blocks the calls of a pass are on.

use crate::timing::PASS_BLOCKS;

/// Numbers that look random, the same at each run.
struct Numbers(u64);

impl Numbers {
    fn below(&mut self, bound: u32) -> u32 {
        self.0 = self
            .0
            .wrapping_mul(6364136223846793005)
            .wrapping_add(1442695040888963407);
        (((self.0 >> 32) * u64::from(bound)) >> 32) as u32
    }
}

/// The first blocks of calls on `length` blocks each, anywhere.
pub fn random(blocks: u32, length: u32) -> Vec<u32> {
    let mut numbers = Numbers(u64::from(length));
    (0..PASS_BLOCKS / length)
        .map(|_| numbers.below(blocks - length + 1))
        .collect()
}

/// The same, one after the other, and then from block 0 again.
pub fn rising(blocks: u32, length: u32) -> Vec<u32> {
    (0..blocks / length)
        .map(|i| i * length)
        .cycle()
        .take((PASS_BLOCKS / length) as usize)
        .collect()
}

/// All blocks, in a random order.
pub fn shuffled(blocks: u32) -> Vec<u32> {
    let mut numbers = Numbers(0);
    let mut order: Vec<u32> = (0..blocks).collect();
    for i in (1..blocks).rev() {
        order.swap(i as usize, numbers.below(i + 1) as usize);
    }
    order
}
