//! The two caches, each over any store.

use std::collections::VecDeque;

use crate::store::{Content, Fault, Store};

const SLOTS: usize = 8;
const PLACES: usize = 16;

/// A content that waits for the store below.
struct Entry {
    block: u32,
    content: Content,
}

impl Entry {
    /// Puts the entry to the store below. Only a loss of power ends the call.
    fn write_back(self, below: &mut dyn Store) -> Result<(), Fault> {
        match below.put_block(self.block, self.content) {
            Err(Fault::PowerOff) => Err(Fault::PowerOff),
            Err(Fault::NoSuchBlock) | Ok(()) => Ok(()),
        }
    }
}

/// What a kind of cache does, with the store below at hand and the refusals done.
trait Buffer {
    fn entries(&self) -> usize;
    /// The last content held for a block.
    fn newest(&self, block: u32) -> Option<&Content>;
    fn put(&mut self, entry: Entry, below: &mut dyn Store) -> Result<(), Fault>;
    /// Writes back all that is held for a block, and what has to go before.
    fn release(&mut self, block: u32, below: &mut dyn Store) -> Result<(), Fault>;
    /// Writes back everything.
    fn release_all(&mut self, below: &mut dyn Store) -> Result<(), Fault>;
}

struct Cache<B> {
    below: Box<dyn Store>,
    buffer: B,
}

/// An empty table cache over a store.
pub fn table(below: Box<dyn Store>) -> Box<dyn Store> {
    Box::new(Cache {
        below,
        buffer: Table::default(),
    })
}

/// An empty queue cache over a store.
pub fn queue(below: Box<dyn Store>) -> Box<dyn Store> {
    Box::new(Cache {
        below,
        buffer: Queue::default(),
    })
}

impl<B: Buffer> Store for Cache<B> {
    fn count(&self) -> u32 {
        self.below.count()
    }

    fn power(&self) -> bool {
        self.below.power()
    }

    fn read_block(&self, block: u32) -> Result<Content, Fault> {
        self.check_block(block)?;
        match self.buffer.newest(block) {
            Some(content) => Ok(content.clone()),
            None => self.below.read_block(block),
        }
    }

    fn put_block(&mut self, block: u32, content: Content) -> Result<(), Fault> {
        self.check_block(block)?;
        self.buffer.put(Entry { block, content }, &mut *self.below)
    }

    fn force_block(&mut self, block: u32) -> Result<(), Fault> {
        self.check_block(block)?;
        self.buffer.release(block, &mut *self.below)?;
        self.below.force_block(block)
    }

    fn flush(&mut self) -> Result<(), Fault> {
        self.check_power()?;
        self.buffer.release_all(&mut *self.below)?;
        self.below.flush()
    }

    fn held(&self) -> usize {
        if self.power() {
            self.buffer.entries() + self.below.held()
        } else {
            0
        }
    }

    fn on_medium(&self, block: u32) -> Content {
        self.below.on_medium(block)
    }

    fn stores_made(&self) -> u64 {
        self.below.stores_made()
    }
}

/// Eight slots, one for a block at most, and a hand.
#[derive(Default)]
struct Table {
    slots: [Option<Entry>; SLOTS],
    hand: usize,
}

impl Table {
    fn slot_of(&self, block: u32) -> Option<usize> {
        self.slots
            .iter()
            .position(|slot| slot.as_ref().is_some_and(|entry| entry.block == block))
    }

    fn empty_slot(&self) -> Option<usize> {
        self.slots.iter().position(Option::is_none)
    }

    /// Empties a slot, and writes back what was in it.
    fn evict(&mut self, slot: usize, below: &mut dyn Store) -> Result<(), Fault> {
        match self.slots[slot].take() {
            Some(entry) => entry.write_back(below),
            None => Ok(()),
        }
    }
}

impl Buffer for Table {
    fn entries(&self) -> usize {
        self.slots.iter().flatten().count()
    }

    fn newest(&self, block: u32) -> Option<&Content> {
        self.slots
            .iter()
            .flatten()
            .find(|entry| entry.block == block)
            .map(|entry| &entry.content)
    }

    fn put(&mut self, entry: Entry, below: &mut dyn Store) -> Result<(), Fault> {
        let slot = match self.slot_of(entry.block).or_else(|| self.empty_slot()) {
            Some(slot) => slot,
            None => {
                let slot = self.hand;
                self.evict(slot, below)?;
                self.hand = (slot + 1) % SLOTS;
                slot
            }
        };
        self.slots[slot] = Some(entry);
        Ok(())
    }

    fn release(&mut self, block: u32, below: &mut dyn Store) -> Result<(), Fault> {
        match self.slot_of(block) {
            Some(slot) => self.evict(slot, below),
            None => Ok(()),
        }
    }

    fn release_all(&mut self, below: &mut dyn Store) -> Result<(), Fault> {
        (0..SLOTS).try_for_each(|slot| self.evict(slot, below))
    }
}

/// Sixteen places in order of arrival.
#[derive(Default)]
struct Queue {
    places: VecDeque<Entry>,
}

impl Queue {
    fn evict_oldest(&mut self, below: &mut dyn Store) -> Result<(), Fault> {
        match self.places.pop_front() {
            Some(entry) => entry.write_back(below),
            None => Ok(()),
        }
    }
}

impl Buffer for Queue {
    fn entries(&self) -> usize {
        self.places.len()
    }

    fn newest(&self, block: u32) -> Option<&Content> {
        self.places
            .iter()
            .rev()
            .find(|entry| entry.block == block)
            .map(|entry| &entry.content)
    }

    fn put(&mut self, entry: Entry, below: &mut dyn Store) -> Result<(), Fault> {
        if self.places.len() == PLACES {
            self.evict_oldest(below)?;
        }
        self.places.push_back(entry);
        Ok(())
    }

    fn release(&mut self, block: u32, below: &mut dyn Store) -> Result<(), Fault> {
        while self.newest(block).is_some() {
            self.evict_oldest(below)?;
        }
        Ok(())
    }

    fn release_all(&mut self, below: &mut dyn Store) -> Result<(), Fault> {
        while !self.places.is_empty() {
            self.evict_oldest(below)?;
        }
        Ok(())
    }
}

#[cfg(test)]
mod tests {
    use std::rc::Rc;

    use super::*;
    use crate::medium;
    use crate::store::BLOCK_BYTES;

    fn filled(byte: u8) -> Content {
        Rc::new([byte; BLOCK_BYTES])
    }

    #[test]
    fn a_full_table_evicts_at_the_hand() {
        let mut cache = table(medium::flat(20, 100));
        for block in 0..10 {
            cache.put_block(block, filled(block as u8 + 1)).unwrap();
        }
        assert_eq!((cache.stores_made(), cache.held()), (2, 8));
        assert_eq!(cache.on_medium(1), filled(2));
        assert_eq!(cache.on_medium(2), filled(0));
        // A forced block leaves its slot empty, and the next one goes there.
        cache.force_block(5).unwrap();
        cache.put_block(10, filled(11)).unwrap();
        assert_eq!((cache.stores_made(), cache.held()), (3, 8));
        cache.put_block(11, filled(12)).unwrap();
        assert_eq!(cache.on_medium(2), filled(3));
    }

    #[test]
    fn a_queue_keeps_the_order_of_arrival() {
        let mut cache = queue(medium::flat(4, 100));
        for (block, byte) in [(0, 1), (1, 2), (0, 3), (2, 4)] {
            cache.put_block(block, filled(byte)).unwrap();
        }
        assert_eq!(cache.read_block(0), Ok(filled(3)));
        cache.force_block(0).unwrap();
        assert_eq!((cache.stores_made(), cache.held()), (3, 1));
        assert_eq!(cache.on_medium(1), filled(2));
        assert_eq!(cache.on_medium(2), filled(0));
    }

    #[test]
    fn without_power_nothing_is_held() {
        let mut cache = table(queue(medium::flat(4, 1)));
        cache.put_block(0, filled(1)).unwrap();
        cache.put_block(1, filled(2)).unwrap();
        assert_eq!(cache.flush(), Err(Fault::PowerOff));
        assert_eq!((cache.stores_made(), cache.held()), (1, 0));
        assert_eq!(cache.on_medium(0), filled(1));
    }
}
