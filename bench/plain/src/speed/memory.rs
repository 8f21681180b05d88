//! The limit: each case with one memcpy for each call, between a buffer and memory of the blocks.

use std::hint::black_box;

use plain_recorder::store::BLOCK_BYTES;

use crate::blocks::{random, rising};
use crate::timing::time;

pub fn time_memory(blocks: u32) {
    let mut memory = vec![1; blocks as usize * BLOCK_BYTES];
    time_into("put-random", &mut memory, random(blocks, 1), 1);
    time_into("put-rising", &mut memory, rising(blocks, 1), 1);
    time_out_of("read-random", &memory, random(blocks, 1), 1);
    time_out_of("read-rising", &memory, rising(blocks, 1), 1);
    time_into("write-1", &mut memory, random(blocks, 1), 1);
    time_into("write-8", &mut memory, random(blocks, 8), 8);
    time_into("write-128", &mut memory, rising(blocks, 128), 128);
    time_out_of("read-1", &memory, random(blocks, 1), 1);
    time_out_of("read-8", &memory, random(blocks, 8), 8);
    time_out_of("read-128", &memory, rising(blocks, 128), 128);
    time_into("sync-8", &mut memory, random(blocks, 8), 8);
}

fn time_into(case: &str, memory: &mut [u8], starts: Vec<u32>, length: usize) {
    let data = vec![2; length * BLOCK_BYTES];
    time(case, || {
        for &start in &starts {
            let at = start as usize * BLOCK_BYTES;
            memory[at..at + data.len()].copy_from_slice(&data);
            black_box(&mut *memory);
        }
    });
}

fn time_out_of(case: &str, memory: &[u8], starts: Vec<u32>, length: usize) {
    let mut data = vec![2; length * BLOCK_BYTES];
    time(case, || {
        for &start in &starts {
            let at = start as usize * BLOCK_BYTES;
            let part = &memory[at..at + data.len()];
            data.copy_from_slice(part);
            black_box(&mut data);
        }
    });
}
