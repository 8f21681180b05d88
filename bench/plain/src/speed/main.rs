//! Times the module over a pile, or memcpy over memory of as many blocks, for `bench/speed.sh`.

mod blocks;
mod memory;
mod piles;
mod timing;

use std::error::Error;

use plain_recorder::card::card;
use plain_recorder::flat::flat;
use plain_recorder::queue::Queue;
use plain_recorder::table::Table;

use crate::memory::time_memory;
use crate::piles::time_pile;

const USAGE: &str = "usage: speed memcpy|flat|flat+table|flat+queue|card|card+queue+table BLOCKS";
const GRANT: u32 = u32::MAX;

fn main() -> Result<(), Box<dyn Error>> {
    let words: Vec<String> = std::env::args().skip(1).collect();
    let [what, blocks] = &words[..] else {
        return Err(USAGE.into());
    };
    let blocks: u32 = blocks.parse()?;
    if blocks < 128 {
        return Err("a WRITE of 128 blocks wants as many".into());
    }
    let flat = || flat(blocks, GRANT);
    let card = || card(blocks, blocks + 1, GRANT);
    match what.as_str() {
        "memcpy" => time_memory(blocks),
        "flat" => time_pile(flat()),
        "flat+table" => time_pile(Table::over(flat())),
        "flat+queue" => time_pile(Queue::over(flat())),
        "card" => time_pile(card()),
        "card+queue+table" => time_pile(Table::over(Queue::over(card()))),
        _ => return Err(USAGE.into()),
    }
    Ok(())
}
