//! Random runs. The calls are chosen one after the other beside a session of the
//! model without power cuts, so that a run gets on after a refusal; the grant is
//! chosen last, from the stores that this session made.

use recorder_model::module::{mode_data, Code};
use recorder_model::pile::{CacheKind, MediumKind, Order, Pile, MOST_CACHES};
use recorder_model::reply::Reply;
use recorder_model::script::{Call, Command, Data, Part, MOST_DATA};
use recorder_model::session::Session;
use recorder_model::store::BLOCK_BYTES;
use recorder_model::unit::{Settings, HOSTS};

use crate::case::Case;
use crate::rng::Rng;

const MOST_BLOCKS: u32 = 20;
const MODE_LIST: usize = 17;

/// The run with this number of a seed.
pub fn case(seed: u64, run: u64) -> Case {
    let mut rng = Rng::new(seed, run);
    let pile = random_pile(&mut rng);
    let mut generator = Generator::new(rng, pile);
    generator.run();
    generator.finish()
}

/// All piles have the same chance.
fn random_pile(rng: &mut Rng) -> Pile {
    let piles = (1 << (MOST_CACHES + 1)) - 1;
    // Below its highest bit, a number from 1 on names a row of caches.
    let row = rng.range(1, piles);
    let caches = (0..row.ilog2())
        .map(|bit| match row >> bit & 1 {
            0 => CacheKind::Table,
            _ => CacheKind::Queue,
        })
        .collect();
    let medium = rng.pick(&[MediumKind::Flat, MediumKind::Card]);
    let blocks = rng.range(1, MOST_BLOCKS);
    let mut pile = Pile::new(Order { medium, caches }).with_blocks(blocks);
    if medium == MediumKind::Card {
        pile.pages = blocks + rng.range(1, 4);
    }
    pile
}

type Weights = [(u32, Code); 13];

/// Mostly blocks are read and written.
const BUSY: Weights = weights([3, 1, 3, 2, 2, 2, 2, 1, 1, 16, 54, 9, 4]);
const EVEN: Weights = weights([8, 4, 8, 5, 5, 6, 8, 6, 3, 12, 25, 6, 4]);
/// Mostly the state of the logical unit is changed.
const STATE: Weights = weights([12, 3, 14, 8, 8, 8, 18, 12, 3, 4, 6, 2, 2]);

const fn weights(by_code: [u32; 13]) -> Weights {
    let mut weights = [(0, Code::TestUnitReady); 13];
    let mut index = 0;
    while index < 13 {
        weights[index] = (by_code[index], Code::ALL[index]);
        index += 1;
    }
    weights
}

struct Generator {
    rng: Rng,
    pile: Pile,
    session: Session,
    calls: Vec<Call>,
    weights: Weights,
    /// The host of most calls, and how often it is another one.
    host: u32,
    other_hosts: u32,
    forced: u32,
    marred: u32,
    /// For contents that no other block had before.
    contents: u32,
}

impl Generator {
    fn new(mut rng: Rng, pile: Pile) -> Self {
        let session = Session::start(&pile.clone().with_grant(u32::MAX));
        Generator {
            weights: rng.weighted(&[(50, BUSY), (35, EVEN), (15, STATE)]),
            host: rng.range(0, HOSTS as u32 - 1),
            other_hosts: rng.pick(&[5, 20, 70]),
            forced: rng.pick(&[0, 10, 10, 50]),
            marred: rng.pick(&[0, 3, 10]),
            contents: 0,
            calls: Vec::new(),
            session,
            pile,
            rng,
        }
    }

    fn run(&mut self) {
        let calls = self.rng.range(5, 60) as usize;
        if self.rng.percent(65) {
            for host in 0..HOSTS as u32 {
                self.play(Call::Command(Command::new(host, vec![0; 6])));
            }
        }
        while self.calls.len() < calls {
            let call = if self.rng.percent(2) {
                Call::Reset
            } else {
                Call::Command(self.command())
            };
            let reply = self.play(call);
            if let Some(command) = self.answer_to(&reply) {
                self.play(Call::Command(command));
            }
        }
    }

    fn play(&mut self, call: Call) -> Reply {
        let reply = self.session.play(&call);
        self.calls.push(call);
        reply
    }

    fn finish(mut self) -> Case {
        let stores = self.session.stores_made() as u32;
        let grant = match self.rng.range(0, 99) {
            0..=3 => 0,
            4..=29 => self.rng.range(1, stores + 1),
            // Rather late, so that most calls are made with power.
            30..=59 => {
                let early = self.rng.range(1, stores + 1);
                self.rng.range(early, stores + 1)
            }
            60..=79 => stores + self.rng.range(1, 3),
            80..=97 => 1_000_000,
            _ => u32::MAX,
        };
        Case {
            pile: self.pile.with_grant(grant),
            calls: self.calls,
        }
    }

    /// Sometimes a command that takes away what a refusal was for.
    fn answer_to(&mut self, reply: &Reply) -> Option<Command> {
        if self.rng.percent(50) {
            return None;
        }
        let unit = *self.session.module().unit();
        match reply.number {
            7 => {
                self.host = unit.holder? as u32;
                let release = self.rng.percent(50);
                release.then(|| self.with_cdb(self.host, Code::Release, &[]))
            }
            9 => Some(self.with_cdb(self.host, Code::StartStopUnit, &[(4, 0x03)])),
            10 => {
                let start = self.rng.pick(&[0x01, 0x03, 0x10, 0x20, 0x30, 0x70]);
                Some(self.with_cdb(self.host, Code::StartStopUnit, &[(4, start)]))
            }
            12 => {
                let settings = Settings {
                    write_disable: false,
                    ..unit.settings
                };
                let mut list = mode_data(settings, self.pile.blocks).to_vec();
                list[0] = 0;
                Some(
                    self.with_cdb(self.host, Code::ModeSelect, &[(4, 17)])
                        .with_out(Data::from_parts([Part::Bytes(list)])),
                )
            }
            13 => {
                let barred = unit.barred.iter().position(|&barred| barred)?;
                Some(self.with_cdb(barred as u32, Code::PreventAllow, &[]))
            }
            _ => None,
        }
    }

    fn with_cdb(&self, host: u32, code: Code, fields: &[(usize, u8)]) -> Command {
        Command::new(host, cdb(code, fields))
    }

    fn some_host(&mut self) -> u32 {
        if self.rng.percent(1) {
            self.rng.pick(&[4, 5, 4, 5, u32::MAX])
        } else if self.rng.percent(self.other_hosts) {
            self.rng.range(0, HOSTS as u32 - 1)
        } else {
            self.host
        }
    }

    fn command(&mut self) -> Command {
        let weights = self.weights;
        let code = self.rng.weighted(&weights);
        let host = self.some_host();
        let mut command = self.well_formed(host, code);
        if self.rng.percent(15) {
            self.set_unnamed_bits(code, &mut command.cdb);
        }
        if self.rng.percent(self.marred) {
            self.mar(&mut command);
        }
        command
    }

    fn well_formed(&mut self, host: u32, code: Code) -> Command {
        match code {
            Code::TestUnitReady | Code::Reserve | Code::Release | Code::SynchronizeCache => {
                self.with_cdb(host, code, &[])
            }
            Code::ReadCapacity => {
                let command = self.with_cdb(host, code, &[]);
                self.with_room_near(command, 8)
            }
            Code::Inquiry => {
                let length = self.allocation(36);
                let command = self.with_cdb(host, code, &[(4, length)]);
                self.with_room_near(command, usize::from(length).min(36))
            }
            Code::ModeSense => {
                let control = self
                    .rng
                    .weighted(&[(6, 0x00), (2, 0x80), (2, 0xC0), (1, 0x40)]);
                let page = self
                    .rng
                    .weighted(&[(5, 0x06), (4, 0x3F), (1, 0x00), (1, 0x08)]);
                let length = self.allocation(MODE_LIST as u8);
                let command = self.with_cdb(host, code, &[(2, control | page), (4, length)]);
                self.with_room_near(command, usize::from(length).min(MODE_LIST))
            }
            Code::PreventAllow => {
                let prevent = self.rng.weighted(&[(5, 0), (5, 1), (1, 2), (1, 3)]);
                self.with_cdb(host, code, &[(4, prevent)])
            }
            Code::StartStopUnit => {
                let power = self
                    .rng
                    .weighted(&[(20, 0), (3, 1), (3, 2), (3, 3), (2, 5), (2, 7)]);
                let power = if self.rng.percent(4) {
                    self.rng.range(0, 15) as u8
                } else {
                    power
                };
                let low = self.rng.weighted(&[(4, 0), (6, 1), (5, 2), (7, 3)]);
                self.with_cdb(host, code, &[(4, power << 4 | low)])
            }
            Code::ModeSelect => self.mode_select(host),
            Code::Read => {
                let (command, blocks) = self.ranged(host, code);
                self.with_room_near(command, blocks * BLOCK_BYTES)
            }
            Code::Verify => self.ranged(host, code).0,
            Code::Write => {
                let (mut command, blocks) = self.ranged(host, code);
                if self.rng.percent(self.forced) {
                    command.cdb[1] |= 0x08;
                }
                // An address that cannot be is found before the data is missed.
                let data = self.contents(blocks.min(3 * MOST_BLOCKS as usize));
                command.with_out(self.near(data))
            }
        }
    }

    /// READ, WRITE or VERIFY, and its length in blocks.
    fn ranged(&mut self, host: u32, code: Code) -> (Command, usize) {
        let count = self.pile.blocks;
        let (address, length) = match self.rng.range(0, 99) {
            0..=89 => {
                let address = self.rng.range(0, count - 1);
                let left = count - address;
                let length = match self.rng.range(0, 99) {
                    0..=3 => 0,
                    4..=54 => 1,
                    55..=84 => self.rng.range(1, 4),
                    _ => self.rng.range(1, left),
                };
                (address, length.min(left))
            }
            90..=95 => (count - 1 + self.rng.range(0, 2), self.rng.range(0, 2)),
            96..=97 => (u32::MAX - self.rng.range(0, 2), self.rng.range(0, 3)),
            _ => (
                self.rng.range(0, count),
                self.rng.pick(&[count, count + 1, 255, 256, 65_535]),
            ),
        };
        let [a, b, c, d] = address.to_be_bytes();
        let [_, _, high, low] = length.to_be_bytes();
        let fields = [(2, a), (3, b), (4, c), (5, d), (7, high), (8, low)];
        (self.with_cdb(host, code, &fields), length as usize)
    }

    fn mode_select(&mut self, host: u32) -> Command {
        let now = self.session.module().unit().settings;
        let settings = Settings {
            write_cache_disable: now.write_cache_disable ^ self.rng.percent(40),
            power_performance: match self.rng.range(0, 2) {
                0 => self.rng.byte(),
                _ => now.power_performance,
            },
            write_disable: self.rng.percent(25),
        };
        let mut list = mode_data(settings, self.pile.blocks).to_vec();
        list[0] = 0;
        if self.rng.percent(20) {
            // Everything but what is tested or set.
            let checked = [0, 0xFF, 0xFF, 0xFF, 0x3F, 0xFF, 0x01];
            for (index, byte) in list.iter_mut().enumerate() {
                let named = match index {
                    14 => 0xFF,
                    15 => 0x04,
                    _ => checked.get(index).copied().unwrap_or(0),
                };
                *byte ^= self.rng.byte() & !named;
            }
        }
        if self.rng.percent(8) {
            let bit = self.rng.index(8 * list.len());
            list[bit / 8] ^= 1 << (bit % 8);
        }
        let length = match self.rng.range(0, 99) {
            0..=83 => MODE_LIST as u8,
            84..=89 => 0,
            _ => self.rng.pick(&[1, 4, 16, 18, 255]),
        };
        list.resize(usize::from(length), 0);
        let list = Data::from_parts([Part::Bytes(list)]);
        self.with_cdb(host, Code::ModeSelect, &[(4, length)])
            .with_out(self.near(list))
    }

    /// An allocation length, often at the bounds of what there is.
    fn allocation(&mut self, most: u8) -> u8 {
        match self.rng.range(0, 5) {
            0 => self.rng.range(0, u32::from(most)) as u8,
            1 => self.rng.pick(&[0, 1, most - 1]),
            2 => self.rng.byte(),
            3 => 255,
            _ => self.rng.pick(&[most, most + 1]),
        }
    }

    fn with_room_near(&mut self, command: Command, needed: usize) -> Command {
        match self.rng.range(0, 19) {
            0 => command.with_room(needed.saturating_sub(1)),
            1..=4 => command.with_room(needed),
            5..=6 => command.with_room((needed + self.rng.index(600)).min(MOST_DATA)),
            _ => command,
        }
    }

    /// Data as it is, or too short by one byte, or too long.
    fn near(&mut self, data: Data) -> Data {
        match self.rng.range(0, 39) {
            0 => data.cut(data.len().saturating_sub(1)),
            1 => data.joined(Data::repeated(
                self.rng.byte(),
                self.rng.range(1, 600) as usize,
            )),
            2 if self.rng.percent(30) => Data::default(),
            _ => data,
        }
    }

    fn contents(&mut self, blocks: usize) -> Data {
        (0..blocks).fold(Data::default(), |data, _| data.joined(self.content()))
    }

    /// The content of a block: mostly a new one, some that come again and again,
    /// and some that differ from others at the end alone.
    fn content(&mut self) -> Data {
        self.contents += 1;
        let mark = self.contents.to_be_bytes().to_vec();
        match self.rng.range(0, 9) {
            0..=5 => Data::from_parts([
                Part::Bytes(mark.clone()),
                Part::Repeated(self.rng.byte(), BLOCK_BYTES - 8),
                Part::Bytes(mark),
            ]),
            6 => Data::from_parts([Part::Repeated(0x11, BLOCK_BYTES - 4), Part::Bytes(mark)]),
            _ => Data::repeated(self.rng.pick(&[0x00, 0x00, 0xFF, 0x11, 0x22]), BLOCK_BYTES),
        }
    }

    fn set_unnamed_bits(&mut self, code: Code, cdb: &mut [u8]) {
        for (byte, named) in cdb.iter_mut().zip(named_bits(code)) {
            *byte |= self.rng.byte() & !named;
        }
    }

    /// Changes a bit of the CDB, its length, or all of it.
    fn mar(&mut self, command: &mut Command) {
        let cdb = &mut command.cdb;
        match self.rng.range(0, 9) {
            0..=4 => {
                let bit = self.rng.index(8 * cdb.len());
                cdb[bit / 8] ^= 1 << (bit % 8);
            }
            5..=6 => cdb.truncate(self.rng.index(cdb.len() + 1)),
            7..=8 => {
                let more = self.rng.index(8) + 1;
                cdb.extend(self.rng.bytes(more));
            }
            _ => {
                let len = self.rng.index(17);
                *cdb = self.rng.bytes(len);
                if let (Some(first), true) = (cdb.first_mut(), self.rng.percent(50)) {
                    *first = self.rng.pick(&Code::ALL).byte();
                }
            }
        }
    }
}

fn cdb(code: Code, fields: &[(usize, u8)]) -> Vec<u8> {
    let mut cdb = vec![0; code.cdb_bytes()];
    cdb[0] = code.byte();
    for &(index, value) in fields {
        cdb[index] = value;
    }
    cdb
}

/// The bits of a CDB that its command looks at.
fn named_bits(code: Code) -> [u8; 10] {
    match code {
        Code::TestUnitReady | Code::Reserve | Code::Release => [255, 0, 0, 0, 0, 255, 0, 0, 0, 0],
        Code::Inquiry => [255, 1, 255, 0, 255, 255, 0, 0, 0, 0],
        Code::ModeSelect => [255, 0, 0, 0, 255, 255, 0, 0, 0, 0],
        Code::ModeSense => [255, 0, 255, 0, 255, 255, 0, 0, 0, 0],
        Code::StartStopUnit => [255, 0, 0, 0, 0xF3, 255, 0, 0, 0, 0],
        Code::PreventAllow => [255, 0, 0, 0, 3, 255, 0, 0, 0, 0],
        Code::ReadCapacity | Code::SynchronizeCache => [255, 0, 0, 0, 0, 0, 0, 0, 0, 255],
        Code::Read | Code::Verify => [255, 1, 255, 255, 255, 255, 0, 255, 255, 255],
        Code::Write => [255, 9, 255, 255, 255, 255, 0, 255, 255, 255],
    }
}
