//! The cases on a pile: calls of the store, and then commands on a module over it. Nothing is cleared between calls.

use std::hint::black_box;

use plain_recorder::module::Module;
use plain_recorder::store::{Store, BLOCK_BYTES};

use crate::blocks::{random, rising, shuffled};
use crate::timing::time;

const READ: u8 = 0x28;
const WRITE: u8 = 0x2a;
const TEST_UNIT_READY: [u8; 6] = [0; 6];
const SYNCHRONIZE_CACHE: [u8; 10] = [0x35, 0, 0, 0, 0, 0, 0, 0, 0, 0];

pub fn time_pile(mut store: impl Store) {
    let blocks = store.count();
    for block in shuffled(blocks) {
        store.put_block(block, &[1; BLOCK_BYTES]).unwrap();
    }
    time_puts("put-random", &mut store, random(blocks, 1));
    time_puts("put-rising", &mut store, rising(blocks, 1));
    time_reads("read-random", &mut store, random(blocks, 1));
    time_reads("read-rising", &mut store, rising(blocks, 1));
    let mut module = Module::make(store);
    // the answer is the unit attention
    module
        .command(0, &TEST_UNIT_READY, &[], &mut [])
        .unwrap_err();
    time_writes("write-1", &mut module, random(blocks, 1), 1);
    time_writes("write-8", &mut module, random(blocks, 8), 8);
    time_writes("write-128", &mut module, rising(blocks, 128), 128);
    time_read_commands("read-1", &mut module, random(blocks, 1), 1);
    time_read_commands("read-8", &mut module, random(blocks, 8), 8);
    time_read_commands("read-128", &mut module, rising(blocks, 128), 128);
    time_synchronized("sync-8", &mut module, random(blocks, 8), 8);
}

fn time_puts(case: &str, store: &mut impl Store, starts: Vec<u32>) {
    let content = [2; BLOCK_BYTES];
    time(case, || {
        for &block in &starts {
            store.put_block(block, black_box(&content)).unwrap();
        }
    });
}

fn time_reads(case: &str, store: &mut impl Store, starts: Vec<u32>) {
    let mut content = [0; BLOCK_BYTES];
    time(case, || {
        for &block in &starts {
            content = *store.read_block(block).unwrap();
            black_box(&mut content);
        }
    });
}

fn time_writes(case: &str, module: &mut Module<impl Store>, starts: Vec<u32>, length: u16) {
    let cdbs = cdbs(WRITE, starts, length);
    let data_out = vec![3; usize::from(length) * BLOCK_BYTES];
    time(case, || {
        for cdb in &cdbs {
            module.command(0, cdb, &data_out, &mut []).unwrap();
        }
    });
}

fn time_read_commands(case: &str, module: &mut Module<impl Store>, starts: Vec<u32>, length: u16) {
    let cdbs = cdbs(READ, starts, length);
    let mut data_in = vec![0; usize::from(length) * BLOCK_BYTES];
    time(case, || {
        for cdb in &cdbs {
            module.command(0, cdb, &[], &mut data_in).unwrap();
            black_box(&mut data_in);
        }
    });
}

/// Each WRITE is followed by a SYNCHRONIZE CACHE.
fn time_synchronized(case: &str, module: &mut Module<impl Store>, starts: Vec<u32>, length: u16) {
    let cdbs = cdbs(WRITE, starts, length);
    let data_out = vec![4; usize::from(length) * BLOCK_BYTES];
    time(case, || {
        for cdb in &cdbs {
            module.command(0, cdb, &data_out, &mut []).unwrap();
            module.command(0, &SYNCHRONIZE_CACHE, &[], &mut []).unwrap();
        }
    });
}

/// The CDBs of commands from these blocks on.
fn cdbs(code: u8, starts: Vec<u32>, length: u16) -> Vec<[u8; 10]> {
    let [high, low] = length.to_be_bytes();
    starts
        .into_iter()
        .map(|start| {
            let [a, b, c, d] = start.to_be_bytes();
            [code, 0, a, b, c, d, 0, high, low, 0]
        })
        .collect()
}
