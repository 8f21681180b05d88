//! The two media, a flat one and a flash card.

use std::collections::{BTreeMap, HashMap};
use std::rc::Rc;

use crate::store::{Content, Fault, Store, BLOCK_BYTES};

/// Where a medium keeps its contents.
trait Layout {
    /// The content of a block, or none if it was never put.
    fn content(&self, block: u32) -> Option<&Content>;
    fn put(&mut self, block: u32, content: Content);
}

/// A medium: it makes as many block stores as it was granted.
struct Medium<L> {
    count: u32,
    grant: u32,
    stores: u64,
    zeros: Content,
    layout: L,
}

/// A flat medium of zeros.
pub fn flat(count: u32, grant: u32) -> Box<dyn Store> {
    medium(count, grant, Flat::default())
}

/// A flash card with every byte FFh.
pub fn card(count: u32, pages: u32, grant: u32) -> Box<dyn Store> {
    assert!(pages > count, "a card has more pages than blocks");
    medium(count, grant, Card::erased(pages))
}

fn medium<L: Layout + 'static>(count: u32, grant: u32, layout: L) -> Box<dyn Store> {
    Box::new(Medium {
        count,
        grant,
        stores: 0,
        zeros: Rc::new([0; BLOCK_BYTES]),
        layout,
    })
}

impl<L: Layout> Store for Medium<L> {
    fn count(&self) -> u32 {
        self.count
    }

    fn power(&self) -> bool {
        self.grant > 0
    }

    fn read_block(&self, block: u32) -> Result<Content, Fault> {
        self.check_block(block)?;
        Ok(self.on_medium(block))
    }

    /// The last granted store is made, and then the power is gone.
    fn put_block(&mut self, block: u32, content: Content) -> Result<(), Fault> {
        self.check_block(block)?;
        self.layout.put(block, content);
        self.stores += 1;
        self.grant -= 1;
        self.check_power()
    }

    fn force_block(&mut self, block: u32) -> Result<(), Fault> {
        self.check_block(block)
    }

    fn flush(&mut self) -> Result<(), Fault> {
        self.check_power()
    }

    fn held(&self) -> usize {
        0
    }

    fn on_medium(&self, block: u32) -> Content {
        self.layout.content(block).unwrap_or(&self.zeros).clone()
    }

    fn stores_made(&self) -> u64 {
        self.stores
    }
}

/// Block after block; one that was never put is zeros.
#[derive(Default)]
struct Flat {
    contents: HashMap<u32, Content>,
}

impl Layout for Flat {
    fn content(&self, block: u32) -> Option<&Content> {
        self.contents.get(&block)
    }

    fn put(&mut self, block: u32, content: Content) {
        self.contents.insert(block, content);
    }
}

/// Pages with an owner. Only the pages with a block as owner are kept here: all
/// others have FFFFFFFFh and are free. The card begins with no owner below the
/// count and a put leaves its block one page, so no two pages have the same.
struct Card {
    pages: u32,
    hand: u32,
    owned: BTreeMap<u32, Content>,
    page_of: HashMap<u32, u32>,
}

impl Card {
    fn erased(pages: u32) -> Self {
        Card {
            pages,
            hand: 0,
            owned: BTreeMap::new(),
            page_of: HashMap::new(),
        }
    }

    /// The first page without an owner, from the hand on and then from page 0.
    fn free_page(&self) -> u32 {
        let from_hand = self.first_gap(self.hand);
        if from_hand < self.pages {
            from_hand
        } else {
            self.first_gap(0)
        }
    }

    /// The first page without an owner from `start` on, or the number of pages.
    fn first_gap(&self, start: u32) -> u32 {
        let mut page = start;
        for &owned in self.owned.range(start..).map(|(owned, _)| owned) {
            if owned != page {
                break;
            }
            page += 1;
        }
        page
    }
}

impl Layout for Card {
    fn content(&self, block: u32) -> Option<&Content> {
        self.page_of.get(&block).map(|page| &self.owned[page])
    }

    fn put(&mut self, block: u32, content: Content) {
        let page = self.free_page();
        self.owned.insert(page, content);
        if let Some(old) = self.page_of.insert(block, page) {
            self.owned.remove(&old);
        }
        self.hand = (page + 1) % self.pages;
    }
}

#[cfg(test)]
mod tests {
    use super::*;

    fn filled(byte: u8) -> Content {
        Rc::new([byte; BLOCK_BYTES])
    }

    #[test]
    fn the_last_granted_store_is_made() {
        for mut medium in [flat(2, 2), card(2, 3, 2)] {
            assert_eq!(medium.put_block(1, filled(1)), Ok(()));
            assert_eq!(medium.put_block(1, filled(2)), Err(Fault::PowerOff));
            assert_eq!(medium.put_block(1, filled(3)), Err(Fault::PowerOff));
            assert_eq!(medium.put_block(2, filled(3)), Err(Fault::NoSuchBlock));
            assert_eq!(medium.on_medium(1), filled(2));
            assert_eq!(medium.on_medium(0), filled(0));
            assert_eq!(medium.stores_made(), 2);
        }
    }

    #[test]
    fn pages_are_taken_in_turn() {
        let mut card = Card::erased(4);
        let mut taken = Vec::new();
        for block in [0, 1, 2, 0, 0, 2, 1] {
            card.put(block, filled(block as u8));
            taken.push(card.page_of[&block]);
        }
        // Blocks 1 and 2 stay on pages 1 and 2 until they are put again.
        assert_eq!(taken, [0, 1, 2, 3, 0, 3, 2]);
        assert_eq!(card.hand, 3);
    }
}
