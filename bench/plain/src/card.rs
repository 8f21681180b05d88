//! The flash card: each put goes to a free page, and the block's other page is given up.

use crate::free_pages::FreePages;
use crate::medium::{Layout, Medium};
use crate::store::{Block, BLOCK_BYTES};

const NOBODY: u32 = u32::MAX;
const NO_PAGE: u32 = u32::MAX;
const ZEROS: Block = [0; BLOCK_BYTES];

/// As it lies on the card.
#[derive(Clone, Copy)]
#[repr(C)]
struct Page {
    owner: [u8; 4],
    content: Block,
}

const ERASED: Page = Page {
    owner: NOBODY.to_be_bytes(),
    content: [0xFF; BLOCK_BYTES],
};

/// The card begins with no page owned, and a put leaves its block one page: so a block has one page at most.
pub struct Card {
    pages: Vec<Page>,
    hand: usize,
    page_of: Vec<u32>,
    free: FreePages,
}

/// A flash card with every byte FFh.
pub fn card(count: u32, pages: u32, grant: u32) -> Medium<Card> {
    assert!(pages > count, "a card has more pages than blocks");
    let card = Card {
        pages: vec![ERASED; pages as usize],
        hand: 0,
        page_of: vec![NO_PAGE; count as usize],
        free: FreePages::all(pages as usize),
    };
    Medium::over(card, count, grant)
}

impl Card {
    /// The first free page, counting round from the hand.
    fn free_page(&self) -> usize {
        self.free
            .first_from(self.hand)
            .or_else(|| self.free.first_from(0))
            .expect("a card has more pages than blocks")
    }
}

impl Layout for Card {
    fn content(&self, block: u32) -> &Block {
        match self.page_of[block as usize] {
            NO_PAGE => &ZEROS,
            page => &self.pages[page as usize].content,
        }
    }

    fn store(&mut self, block: u32, content: &Block) {
        let page = self.free_page();
        self.pages[page].content = *content;
        self.pages[page].owner = block.to_be_bytes();
        let old = std::mem::replace(&mut self.page_of[block as usize], page as u32);
        if old != NO_PAGE {
            self.pages[old as usize].owner = NOBODY.to_be_bytes();
            self.free.insert(old as usize);
        }
        self.free.remove(page);
        self.hand = if page + 1 == self.pages.len() {
            0
        } else {
            page + 1
        };
    }
}
