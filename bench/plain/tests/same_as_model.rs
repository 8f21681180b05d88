//! The module here and the model answer alike, and leave the same on the medium, over random calls.

use plain_recorder::card::card;
use plain_recorder::flat::flat;
use plain_recorder::medium::{Layout, Medium};
use plain_recorder::module::Module;
use plain_recorder::queue::Queue;
use plain_recorder::store::{Block, Store, BLOCK_BYTES};
use plain_recorder::table::Table;
use plain_recorder::unit::Failure;
use recorder_model::module::Module as Model;
use recorder_model::options;
use recorder_model::reply::Reply;

const BLOCKS: u32 = 40;
const PAGES: u32 = 42;
const RUNS: u64 = 300;
const CALLS: usize = 200;
const ROOM: usize = 8 * BLOCK_BYTES;

/// Numbers that look random, the same at each run.
struct Numbers(u64);

impl Numbers {
    fn below(&mut self, bound: u32) -> u32 {
        self.0 = self
            .0
            .wrapping_mul(6364136223846793005)
            .wrapping_add(1442695040888963407);
        ((self.0 >> 33) % u64::from(bound)) as u32
    }

    fn one_in(&mut self, bound: u32) -> bool {
        self.below(bound) == 0
    }

    /// A CDB that is mostly well formed.
    fn cdb(&mut self) -> Vec<u8> {
        const CODES: [u8; 16] = [
            0x2a, 0x2a, 0x2a, 0x28, 0x28, 0x2f, 0x35, 0x00, 0x12, 0x15, 0x16, 0x17, 0x1a, 0x1b,
            0x1e, 0x25,
        ];
        let code = CODES[self.below(16) as usize];
        let mut cdb = vec![0; if code < 0x20 { 6 } else { 10 }];
        cdb[0] = code;
        if code < 0x20 {
            cdb[4] = match code {
                0x15 => 17 * (1 - self.below(4) as u8 / 3),
                0x1e => self.below(3) as u8,
                0x1b => [
                    0x01, 0x01, 0x03, 0x03, 0x10, 0x20, 0x50, 0x00, 0x02, 0x70, 0x40,
                ][self.below(11) as usize],
                _ => self.below(64) as u8,
            };
            if code == 0x1a {
                cdb[2] = [0x3f, 0x06, 0x86, 0x46, 0x01][self.below(5) as usize];
            }
        } else {
            cdb[1] = 8 * self.below(2) as u8;
            cdb[5] = self.below(BLOCKS + 1) as u8;
            cdb[8] = self.below(6) as u8;
        }
        if self.one_in(30) {
            let at = self.below(cdb.len() as u32) as usize;
            cdb[at] = self.below(256) as u8;
        }
        if self.one_in(60) {
            cdb.pop();
        }
        cdb
    }

    /// Data-out of a WRITE, or now and then a parameter list.
    fn data_out(&mut self, code: Option<&u8>) -> Vec<u8> {
        if code == Some(&0x15) {
            let mut list = vec![
                0x10, 0, 0, 0, 0x86, 0x0b, 0, 2, 0, 0, 0, 0, 0, 40, 0x80, 2, 0,
            ];
            list[6] = self.one_in(3).into();
            list[15] = 4 * u8::from(self.one_in(8));
            if self.one_in(8) {
                list[self.below(6) as usize] ^= 1;
            }
            return list;
        }
        let blocks = if self.one_in(20) { 2 } else { 6 };
        (0..blocks)
            .flat_map(|_| [self.below(256) as u8; BLOCK_BYTES])
            .collect()
    }
}

/// A store taken down to its medium.
trait Bottom: Store {
    fn content(&self, block: u32) -> &Block;
}

impl<L: Layout> Bottom for Medium<L> {
    fn content(&self, block: u32) -> &Block {
        self.on_medium(block)
    }
}

impl<S: Bottom> Bottom for Table<S> {
    fn content(&self, block: u32) -> &Block {
        self.below.content(block)
    }
}

impl<S: Bottom> Bottom for Queue<S> {
    fn content(&self, block: u32) -> &Block {
        self.below.content(block)
    }
}

fn number(failure: Failure) -> u8 {
    match failure {
        Failure::NoSuchHost => 1,
        Failure::PowerOff => 2,
        Failure::InvalidOpcode => 3,
        Failure::ShortCdb => 4,
        Failure::ControlSet => 5,
        Failure::UnitAttention(_) => 6,
        Failure::ReservationConflict => 7,
        Failure::InvalidField => 8,
        Failure::MediumNotPresent => 9,
        Failure::NotReady => 10,
        Failure::AddressOutOfRange => 11,
        Failure::WriteProtected => 12,
        Failure::RemovalPrevented => 13,
        Failure::ListLength => 14,
        Failure::DataPhase => 15,
        Failure::InvalidParameter => 16,
    }
}

fn same(answer: Result<usize, Failure>, data_in: &[u8], reply: &Reply) -> bool {
    match answer {
        Ok(count) => reply.number == 0 && data_in[..count] == reply.data,
        Err(failure) => reply.number == number(failure),
    }
}

/// Plays a run on both, and counts the answers by their numbers.
fn play<S: Bottom>(run: u64, store: S, order: &str, grant: u32, counts: &mut [u32; 17]) {
    let pages = if order.starts_with("card") {
        format!(" --pages {PAGES}")
    } else {
        String::new()
    };
    let words = format!("{order} --blocks {BLOCKS}{pages} --grant {grant}");
    let (pile, _) = options::parse(words.split(' ')).unwrap();
    let mut model = Model::make(pile.build());
    let mut module = Module::make(store);
    let mut numbers = Numbers(run);
    let mut data_in = vec![0xee; ROOM];
    for call in 0..CALLS {
        if numbers.one_in(50) {
            assert!(same(module.reset(), &data_in, &model.reset()));
            continue;
        }
        let host = if numbers.one_in(3) {
            numbers.below(5)
        } else {
            0
        };
        let cdb = numbers.cdb();
        let out = numbers.data_out(cdb.first());
        let room = if numbers.one_in(10) { 700 } else { ROOM };
        let reply = model.command(host, &cdb, &out, room);
        let answer = module.command(host, &cdb, &out, &mut data_in[..room]);
        counts[usize::from(reply.number)] += 1;
        assert!(
            same(answer, &data_in, &reply),
            "{words}, run {run}, call {call}: {cdb:02x?} {answer:?} {reply}"
        );
    }
    assert_eq!(module.store().power(), model.store().power());
    for block in 0..BLOCKS {
        let found = model.store().on_medium(block);
        assert_eq!(
            module.store().content(block),
            &*found,
            "{words}, run {run}, block {block}"
        );
    }
}

#[test]
fn module_and_model_are_alike() {
    let mut counts = [0; 17];
    for run in 0..RUNS {
        // in one run of two the power goes
        let grant = if run % 2 == 0 {
            1_000_000
        } else {
            (run % 90) as u32
        };
        let flat = || flat(BLOCKS, grant);
        let card = || card(BLOCKS, PAGES, grant);
        let counts = &mut counts;
        play(run, flat(), "flat", grant, counts);
        play(run, Table::over(flat()), "flat+table", grant, counts);
        play(run, Queue::over(flat()), "flat+queue", grant, counts);
        play(run, card(), "card", grant, counts);
        play(
            run,
            Queue::over(Table::over(card())),
            "card+table+queue",
            grant,
            counts,
        );
        play(
            run,
            Table::over(Queue::over(card())),
            "card+queue+table",
            grant,
            counts,
        );
    }
    println!("answers by number: {counts:?}");
    assert!(counts.iter().all(|&count| count > 0), "{counts:?}");
}
