//! Block stores: the calls that every medium and every cache answers.

use std::rc::Rc;

pub const BLOCK_BYTES: usize = 512;

/// The content of a block.
pub type Content = Rc<[u8; BLOCK_BYTES]>;

/// The answers of a store other than good.
#[derive(Debug, Clone, Copy, PartialEq, Eq)]
pub enum Fault {
    /// Answer 1: power is off, or was lost in this call.
    PowerOff,
    /// Answer 2: the block is not below the count.
    NoSuchBlock,
}

pub trait Store {
    fn count(&self) -> u32;
    fn power(&self) -> bool;
    fn read_block(&self, block: u32) -> Result<Content, Fault>;
    fn put_block(&mut self, block: u32, content: Content) -> Result<(), Fault>;
    fn force_block(&mut self, block: u32) -> Result<(), Fault>;
    fn flush(&mut self) -> Result<(), Fault>;

    /// How many contents wait in caches, from here down; none without power.
    fn held(&self) -> usize;
    /// What the medium at the bottom has for a block.
    fn on_medium(&self, block: u32) -> Content;
    /// How many block stores the medium at the bottom has made.
    fn stores_made(&self) -> u64;

    /// Refuses a call without power.
    fn check_power(&self) -> Result<(), Fault> {
        if self.power() {
            Ok(())
        } else {
            Err(Fault::PowerOff)
        }
    }

    /// Refuses a call on a block that is not there, and then one without power.
    fn check_block(&self, block: u32) -> Result<(), Fault> {
        if block >= self.count() {
            return Err(Fault::NoSuchBlock);
        }
        self.check_power()
    }
}
