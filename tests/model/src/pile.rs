//! A pile: a medium with caches over it, as ORDER and its options name it.

use std::fmt;
use std::str::FromStr;

use crate::store::Store;
use crate::{caches, medium};

pub const MOST_BLOCKS: u32 = 16_777_216;
pub const MOST_CACHES: usize = 3;

const DEFAULT_BLOCKS: u32 = 10;
const DEFAULT_GRANT: u32 = 1_000_000;

#[derive(Debug, Clone, Copy, PartialEq, Eq, PartialOrd, Ord)]
pub enum MediumKind {
    Flat,
    Card,
}

#[derive(Debug, Clone, Copy, PartialEq, Eq, PartialOrd, Ord)]
pub enum CacheKind {
    Table,
    Queue,
}

/// A medium, and the caches over it from the bottom up.
#[derive(Debug, Clone, PartialEq, Eq, PartialOrd, Ord)]
pub struct Order {
    pub medium: MediumKind,
    pub caches: Vec<CacheKind>,
}

impl FromStr for Order {
    type Err = String;

    fn from_str(word: &str) -> Result<Self, String> {
        let malformed = || {
            format!(
                "`{word}`: expected `flat` or `card`, then up to {MOST_CACHES} of `table` and \
                 `queue`, joined by `+`"
            )
        };
        let mut names = word.split('+');
        let medium = match names.next() {
            Some("flat") => MediumKind::Flat,
            Some("card") => MediumKind::Card,
            _ => return Err(malformed()),
        };
        let caches: Vec<CacheKind> = names
            .map(|name| match name {
                "table" => Ok(CacheKind::Table),
                "queue" => Ok(CacheKind::Queue),
                _ => Err(malformed()),
            })
            .collect::<Result<_, _>>()?;
        if caches.len() > MOST_CACHES {
            return Err(malformed());
        }
        Ok(Order { medium, caches })
    }
}

impl fmt::Display for Order {
    fn fmt(&self, f: &mut fmt::Formatter<'_>) -> fmt::Result {
        f.write_str(match self.medium {
            MediumKind::Flat => "flat",
            MediumKind::Card => "card",
        })?;
        self.caches.iter().try_for_each(|cache| {
            f.write_str(match cache {
                CacheKind::Table => "+table",
                CacheKind::Queue => "+queue",
            })
        })
    }
}

#[derive(Debug, Clone, PartialEq, Eq)]
pub struct Pile {
    pub order: Order,
    pub blocks: u32,
    /// Pages of a card; a flat medium has none.
    pub pages: u32,
    pub grant: u32,
}

impl Pile {
    pub fn new(order: Order) -> Self {
        let pages = default_pages(order.medium, DEFAULT_BLOCKS);
        Pile {
            order,
            blocks: DEFAULT_BLOCKS,
            pages,
            grant: DEFAULT_GRANT,
        }
    }

    /// The same pile with another count of blocks, and the pages that go with it.
    pub fn with_blocks(self, blocks: u32) -> Self {
        let pages = default_pages(self.order.medium, blocks);
        Pile {
            blocks,
            pages,
            ..self
        }
    }

    pub fn with_grant(self, grant: u32) -> Self {
        Pile { grant, ..self }
    }

    pub fn build(&self) -> Box<dyn Store> {
        let medium = match self.order.medium {
            MediumKind::Flat => medium::flat(self.blocks, self.grant),
            MediumKind::Card => medium::card(self.blocks, self.pages, self.grant),
        };
        self.order
            .caches
            .iter()
            .fold(medium, |below, cache| match cache {
                CacheKind::Table => caches::table(below),
                CacheKind::Queue => caches::queue(below),
            })
    }
}

fn default_pages(medium: MediumKind, blocks: u32) -> u32 {
    match medium {
        MediumKind::Flat => 0,
        MediumKind::Card => blocks + 2,
    }
}

/// As on the command line; options are told where they are not the default.
impl fmt::Display for Pile {
    fn fmt(&self, f: &mut fmt::Formatter<'_>) -> fmt::Result {
        write!(f, "{}", self.order)?;
        if self.blocks != DEFAULT_BLOCKS {
            write!(f, " --blocks {}", self.blocks)?;
        }
        if self.pages != default_pages(self.order.medium, self.blocks) {
            write!(f, " --pages {}", self.pages)?;
        }
        if self.grant != DEFAULT_GRANT {
            write!(f, " --grant {}", self.grant)?;
        }
        Ok(())
    }
}
