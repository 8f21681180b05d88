//! Block stores.

pub const BLOCK_BYTES: usize = 512;

pub type Block = [u8; BLOCK_BYTES];

/// Why a call on a store was not good.
#[derive(Debug, Clone, Copy, PartialEq, Eq)]
pub enum Fault {
    PowerOff,
    NoSuchBlock,
}

pub trait Store {
    fn count(&self) -> u32;
    fn power(&self) -> bool;
    fn read_block(&self, block: u32) -> Result<&Block, Fault>;
    fn put_block(&mut self, block: u32, content: &Block) -> Result<(), Fault>;
    fn force_block(&mut self, block: u32) -> Result<(), Fault>;
    fn flush(&mut self) -> Result<(), Fault>;

    fn check_power(&self) -> Result<(), Fault> {
        if self.power() {
            Ok(())
        } else {
            Err(Fault::PowerOff)
        }
    }

    /// Refuses a call on a block that is not there, and then one without power.
    fn check_block(&self, block: u32) -> Result<(), Fault> {
        if block >= self.count() {
            return Err(Fault::NoSuchBlock);
        }
        self.check_power()
    }
}

/// Puts to the store below; only a lost power ends the call.
pub fn write_back<S: Store>(below: &mut S, block: u32, content: &Block) -> Result<(), Fault> {
    match below.put_block(block, content) {
        Err(Fault::NoSuchBlock) => Ok(()),
        answer => answer,
    }
}
