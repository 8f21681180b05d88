//! The module: MAKE, COMMAND and RESET.

use std::rc::Rc;

use crate::reply::{Failure, Reply};
use crate::store::{Fault, Store, BLOCK_BYTES};
use crate::unit::{Condition, LogicalUnit, Settings, HOSTS};

const INQUIRY_DATA: &[u8; 36] = b"\x0E\x80\x04\x02\x1F\0\0\0BERGBAHNBRAKE LOG MODULE0100";
const MODE_DATA_BYTES: usize = 17;
const CAPACITY_BYTES: usize = 8;

/// The commands, by their operation codes.
#[derive(Debug, Clone, Copy, PartialEq, Eq)]
pub enum Code {
    TestUnitReady,
    Inquiry,
    ModeSelect,
    Reserve,
    Release,
    ModeSense,
    StartStopUnit,
    PreventAllow,
    ReadCapacity,
    Read,
    Write,
    Verify,
    SynchronizeCache,
}

impl Code {
    pub const ALL: [Code; 13] = [
        Code::TestUnitReady,
        Code::Inquiry,
        Code::ModeSelect,
        Code::Reserve,
        Code::Release,
        Code::ModeSense,
        Code::StartStopUnit,
        Code::PreventAllow,
        Code::ReadCapacity,
        Code::Read,
        Code::Write,
        Code::Verify,
        Code::SynchronizeCache,
    ];

    pub fn byte(self) -> u8 {
        match self {
            Code::TestUnitReady => 0x00,
            Code::Inquiry => 0x12,
            Code::ModeSelect => 0x15,
            Code::Reserve => 0x16,
            Code::Release => 0x17,
            Code::ModeSense => 0x1A,
            Code::StartStopUnit => 0x1B,
            Code::PreventAllow => 0x1E,
            Code::ReadCapacity => 0x25,
            Code::Read => 0x28,
            Code::Write => 0x2A,
            Code::Verify => 0x2F,
            Code::SynchronizeCache => 0x35,
        }
    }

    pub fn from_byte(byte: u8) -> Option<Code> {
        Code::ALL.into_iter().find(|code| code.byte() == byte)
    }

    /// How long a CDB with this code has to be.
    pub fn cdb_bytes(self) -> usize {
        if self.byte() < 0x20 {
            6
        } else {
            10
        }
    }

    /// Commands that need a loaded medium and a condition that is ready.
    fn needs_medium(self) -> bool {
        matches!(
            self,
            Code::TestUnitReady
                | Code::ReadCapacity
                | Code::Read
                | Code::Write
                | Code::Verify
                | Code::SynchronizeCache
        )
    }

    /// Commands on a range of blocks.
    fn has_range(self) -> bool {
        matches!(self, Code::Read | Code::Write | Code::Verify)
    }
}

/// A CDB that is long enough for its code, and the fields that its command may have.
#[derive(Clone, Copy)]
pub struct Cdb<'a> {
    pub code: Code,
    bytes: &'a [u8],
}

impl<'a> Cdb<'a> {
    fn parse(bytes: &'a [u8]) -> Result<Self, Failure> {
        let code = bytes
            .first()
            .and_then(|&byte| Code::from_byte(byte))
            .ok_or(Failure::UnknownCode)?;
        if bytes.len() < code.cdb_bytes() {
            return Err(Failure::ShortCdb);
        }
        let cdb = Cdb { code, bytes };
        if cdb.byte(code.cdb_bytes() - 1) != 0 {
            return Err(Failure::Control);
        }
        Ok(cdb)
    }

    fn byte(&self, index: usize) -> u8 {
        self.bytes[index]
    }

    fn bit(&self, index: usize, bit: u8) -> bool {
        self.byte(index) >> bit & 1 == 1
    }

    fn address(&self) -> u32 {
        u32::from_be_bytes([self.byte(2), self.byte(3), self.byte(4), self.byte(5)])
    }

    fn length(&self) -> u32 {
        u32::from(u16::from_be_bytes([self.byte(7), self.byte(8)]))
    }

    /// The blocks of READ, WRITE and VERIFY, once their range has been checked.
    pub fn blocks(&self) -> std::ops::Range<u32> {
        self.address()..self.address() + self.length()
    }

    fn fua(&self) -> bool {
        self.bit(1, 3)
    }

    /// The allocation length, or the length of MODE SELECT's list.
    fn short_length(&self) -> usize {
        usize::from(self.byte(4))
    }

    fn page_control(&self) -> u8 {
        self.byte(2) >> 6
    }

    fn page_code(&self) -> u8 {
        self.byte(2) & 0x3F
    }

    fn prevent(&self) -> u8 {
        self.byte(4) & 3
    }

    fn power_condition(&self) -> u8 {
        self.byte(4) >> 4
    }

    fn load_eject(&self) -> bool {
        self.bit(4, 1)
    }

    fn start(&self) -> bool {
        self.bit(4, 0)
    }

    fn is_unload(&self) -> bool {
        self.code == Code::StartStopUnit
            && self.power_condition() == 0
            && !self.start()
            && self.load_eject()
    }

    /// Commands that another host's reservation does not stop.
    fn passes_reservation(&self) -> bool {
        match self.code {
            Code::Inquiry | Code::ReadCapacity | Code::Release => true,
            Code::PreventAllow => self.prevent() == 0,
            Code::StartStopUnit => self.start() && self.power_condition() == 0,
            _ => false,
        }
    }

    fn fields_are_valid(&self) -> bool {
        match self.code {
            Code::Inquiry => !self.bit(1, 0) && self.byte(2) == 0,
            Code::ModeSense => self.page_control() != 1 && matches!(self.page_code(), 0x06 | 0x3F),
            Code::StartStopUnit => matches!(self.power_condition(), 0 | 1 | 2 | 3 | 5 | 7),
            Code::PreventAllow => self.prevent() <= 1,
            Code::Read | Code::Write | Code::Verify => !self.bit(1, 0),
            _ => true,
        }
    }

    /// How many bytes of data-out the command uses.
    fn bytes_taken(&self) -> usize {
        match self.code {
            Code::Write => BLOCK_BYTES * self.length() as usize,
            Code::ModeSelect => self.short_length(),
            _ => 0,
        }
    }

    /// How many bytes the command returns.
    fn bytes_returned(&self) -> usize {
        match self.code {
            Code::Inquiry => self.short_length().min(INQUIRY_DATA.len()),
            Code::ModeSense => self.short_length().min(MODE_DATA_BYTES),
            Code::ReadCapacity => CAPACITY_BYTES,
            Code::Read => BLOCK_BYTES * self.length() as usize,
            _ => 0,
        }
    }
}

/// The blocks of a CDB that is a WRITE, if its range is one of numbers.
pub fn written_blocks(cdb: &[u8]) -> Option<std::ops::Range<u32>> {
    let cdb = Cdb::parse(cdb).ok()?;
    (cdb.code == Code::Write).then(|| cdb.blocks())
}

/// The 17 bytes of MODE SENSE.
pub fn mode_data(settings: Settings, count: u32) -> [u8; MODE_DATA_BYTES] {
    let mut data = [0; MODE_DATA_BYTES];
    data[0] = 0x10;
    data[4] = 0x86;
    data[5] = 0x0B;
    data[6] = u8::from(settings.write_cache_disable);
    data[7..9].copy_from_slice(&(BLOCK_BYTES as u16).to_be_bytes());
    data[9] = 0;
    data[10..14].copy_from_slice(&count.to_be_bytes());
    data[14] = settings.power_performance;
    data[15] = u8::from(settings.write_disable) << 2 | 0x02;
    data
}

/// The settings of a MODE SELECT list; none if its header or its page is another.
fn listed_settings(list: &[u8]) -> Option<Settings> {
    let fits = list[1..4] == [0, 0, 0] && list[4] & 0x3F == 0x06 && list[5] == 0x0B;
    fits.then(|| Settings {
        write_cache_disable: list[6] & 1 == 1,
        power_performance: list[14],
        write_disable: list[15] >> 2 & 1 == 1,
    })
}

pub struct Module {
    store: Box<dyn Store>,
    unit: LogicalUnit,
}

impl Module {
    /// MAKE: the flush is asked, whatever it answers.
    pub fn make(mut store: Box<dyn Store>) -> Self {
        let _ = store.flush();
        Module {
            store,
            unit: LogicalUnit::new(),
        }
    }

    pub fn store(&self) -> &dyn Store {
        &*self.store
    }

    pub fn unit(&self) -> &LogicalUnit {
        &self.unit
    }

    /// RESET.
    pub fn reset(&mut self) -> Reply {
        if !self.store.power() {
            return Reply::new(Err(Failure::NoPower));
        }
        self.unit.reset();
        Reply::new(Ok(Vec::new()))
    }

    /// COMMAND, with room for `room` bytes of data-in.
    pub fn command(&mut self, host: u32, cdb: &[u8], out: &[u8], room: usize) -> Reply {
        let outcome = self
            .judge(host, cdb, out, room)
            .and_then(|(host, cdb)| self.act(host, cdb, out));
        if let Err(Failure::Attention(_)) = outcome {
            self.unit.attentions[host as usize] = None;
        }
        Reply::new(outcome)
    }

    /// The ladder: the first test that fails gives the answer.
    fn judge<'a>(
        &self,
        host: u32,
        cdb: &'a [u8],
        out: &[u8],
        room: usize,
    ) -> Result<(usize, Cdb<'a>), Failure> {
        let unit = &self.unit;
        let host = usize::try_from(host)
            .ok()
            .filter(|&host| host < HOSTS)
            .ok_or(Failure::NoSuchHost)?;
        check(self.store.power(), Failure::NoPower)?;
        let cdb = Cdb::parse(cdb)?;
        if let (Some(attention), true) = (unit.attentions[host], cdb.code != Code::Inquiry) {
            return Err(Failure::Attention(attention));
        }
        check(
            cdb.passes_reservation() || !unit.is_held_against(host),
            Failure::Reserved,
        )?;
        check(cdb.fields_are_valid(), Failure::Field)?;
        if cdb.code.needs_medium() {
            check(unit.loaded, Failure::NotLoaded)?;
            check(unit.condition.is_ready(), Failure::NotReady)?;
        }
        if cdb.code.has_range() {
            let end = u64::from(cdb.address()) + u64::from(cdb.length());
            check(end <= u64::from(self.store.count()), Failure::Address)?;
        }
        if cdb.code == Code::Write {
            check(!unit.settings.write_disable, Failure::WriteProtected)?;
        }
        if cdb.is_unload() {
            check(unit.barred == [false; HOSTS], Failure::Barred)?;
        }
        let has_list = cdb.code == Code::ModeSelect && cdb.short_length() != 0;
        if has_list {
            check(cdb.short_length() == MODE_DATA_BYTES, Failure::ListLength)?;
        }
        check(
            out.len() >= cdb.bytes_taken() && room >= cdb.bytes_returned(),
            Failure::Buffer,
        )?;
        if has_list {
            check(listed_settings(out).is_some(), Failure::List)?;
        }
        Ok((host, cdb))
    }

    /// Does what a command is for, and gives the bytes that it returns.
    fn act(&mut self, host: usize, cdb: Cdb, out: &[u8]) -> Result<Vec<u8>, Failure> {
        let mut returned = Vec::new();
        match cdb.code {
            Code::TestUnitReady => {}
            Code::Inquiry => returned.extend(&INQUIRY_DATA[..cdb.bytes_returned()]),
            Code::ModeSelect if cdb.short_length() == 0 => {}
            Code::ModeSelect => self.mode_select(host, out)?,
            Code::Reserve => self.unit.holder = Some(host),
            Code::Release if self.unit.is_held_against(host) => {}
            Code::Release => self.unit.holder = None,
            Code::ModeSense => {
                let settings = match cdb.page_control() {
                    2 => Settings::DEFAULTS,
                    _ => self.unit.settings,
                };
                let data = mode_data(settings, self.store.count());
                returned.extend(&data[..cdb.bytes_returned()]);
            }
            Code::StartStopUnit => self.start_stop(cdb)?,
            Code::PreventAllow => self.unit.barred[host] = cdb.prevent() == 1,
            Code::ReadCapacity => {
                returned.extend((self.store.count() - 1).to_be_bytes());
                returned.extend((BLOCK_BYTES as u32).to_be_bytes());
            }
            Code::Read => {
                for block in cdb.blocks() {
                    let content = self.store.read_block(block).map_err(lost)?;
                    returned.extend(&content[..]);
                }
            }
            Code::Write => self.write(cdb, out)?,
            Code::Verify => {
                for block in cdb.blocks() {
                    self.store.force_block(block).map_err(lost)?;
                    self.store.read_block(block).map_err(lost)?;
                }
            }
            Code::SynchronizeCache => self.store.flush().map_err(lost)?,
        }
        Ok(returned)
    }

    fn mode_select(&mut self, host: usize, list: &[u8]) -> Result<(), Failure> {
        let settings = listed_settings(list).ok_or(Failure::List)?;
        if settings.write_cache_disable && !self.unit.settings.write_cache_disable {
            self.store.flush().map_err(lost)?;
        }
        self.unit.change_settings(host, settings);
        Ok(())
    }

    fn start_stop(&mut self, cdb: Cdb) -> Result<(), Failure> {
        let condition = match (cdb.power_condition(), cdb.start()) {
            (2, _) => Condition::Idle,
            (3, _) => Condition::Standby,
            (5, _) => Condition::Sleep,
            (0, false) => Condition::Stopped,
            _ => Condition::Active,
        };
        if matches!(condition, Condition::Sleep | Condition::Stopped) {
            self.store.flush().map_err(lost)?;
        }
        self.unit.condition = condition;
        if cdb.is_unload() {
            self.unit.loaded = false;
        } else if cdb.power_condition() == 0 && cdb.load_eject() {
            self.unit.load();
        }
        Ok(())
    }

    fn write(&mut self, cdb: Cdb, out: &[u8]) -> Result<(), Failure> {
        let forced = cdb.fua() || self.unit.settings.write_cache_disable;
        for (block, content) in cdb.blocks().zip(out.chunks_exact(BLOCK_BYTES)) {
            let content = content.try_into().expect("a chunk is a block");
            self.store
                .put_block(block, Rc::new(content))
                .map_err(lost)?;
            if forced {
                self.store.force_block(block).map_err(lost)?;
            }
        }
        Ok(())
    }
}

fn check(passed: bool, failure: Failure) -> Result<(), Failure> {
    if passed {
        Ok(())
    } else {
        Err(failure)
    }
}

/// A store's fault in a command whose blocks are all there.
fn lost(fault: Fault) -> Failure {
    assert_eq!(fault, Fault::PowerOff, "a command has checked its blocks");
    Failure::NoPower
}

#[cfg(test)]
mod tests {
    use super::*;
    use crate::hex;
    use crate::medium;

    fn ready_module() -> Module {
        let mut module = Module::make(medium::flat(10, 1000));
        for host in 0..4 {
            assert_eq!(numbers(&mut module, &[(host, "000000000000")]), [6]);
        }
        module
    }

    fn numbers(module: &mut Module, commands: &[(u32, &str)]) -> Vec<u8> {
        commands
            .iter()
            .map(|(host, cdb)| {
                let cdb = hex::parse(cdb).unwrap();
                module.command(*host, &cdb, &[0x11; 512], 65536).number
            })
            .collect()
    }

    #[test]
    fn the_ladder_is_tested_in_order() {
        let mut module = Module::make(medium::flat(10, 1000));
        let commands = [
            (4, "12"),
            (0, "13"),
            (0, "1200"),
            (0, "120000000001"),
            (0, "120000002400"),
            (0, "28000000000900000200"),
            (0, "28000000000900000200"),
            (0, "28010000000900000200"),
            (0, "28000000000900000100"),
        ];
        assert_eq!(
            numbers(&mut module, &commands),
            [1, 3, 4, 5, 0, 6, 11, 8, 0]
        );
    }

    #[test]
    fn inquiry_has_36_bytes() {
        let mut module = ready_module();
        let reply = module.command(1, &[0x12, 0, 0, 0, 255, 0], &[], 36);
        assert_eq!(reply.data, INQUIRY_DATA);
        let reply = module.command(1, &[0x12, 0, 0, 0, 255, 0], &[], 35);
        assert_eq!(reply.number, 15);
    }

    #[test]
    fn a_reservation_is_kept_against_the_others() {
        let mut module = ready_module();
        let commands = [
            (1, "160000000000"),
            (0, "2a000000000000000100"),
            (0, "170000000000"),
            (0, "250000000000000000" /* short */),
            (0, "25000000000000000000"),
            (0, "1b0000000100"),
            (0, "1b0000000000"),
            (1, "2a000000000000000100"),
            (1, "170000000000"),
            (0, "2a000000000000000100"),
        ];
        assert_eq!(
            numbers(&mut module, &commands),
            [0, 7, 0, 4, 0, 0, 7, 0, 0, 0]
        );
    }

    #[test]
    fn an_unload_is_barred_and_then_told() {
        let mut module = ready_module();
        let commands = [
            (2, "1e0000000100"),
            (0, "1b0000000200"),
            (2, "1e0000000000"),
            (0, "1b0000000200"),
            (0, "000000000000"),
            (0, "1b0000000100"),
            (0, "000000000000"),
            (0, "1b0000000300"),
            (0, "000000000000"),
            (0, "000000000000"),
        ];
        assert_eq!(
            numbers(&mut module, &commands),
            [0, 13, 0, 0, 9, 0, 9, 0, 6, 0]
        );
    }

    #[test]
    fn a_mode_select_changes_what_mode_sense_returns() {
        let mut module = ready_module();
        let mut list = mode_data(Settings::DEFAULTS, 10);
        list[0] = 0;
        list[15] = 0x04;
        let reply = module.command(0, &[0x15, 0, 0, 0, 17, 0], &list, 0);
        assert!(reply.is_good());
        let sense = module.command(0, &[0x1A, 0, 0x06, 0, 255, 0], &[], 17);
        assert_eq!(sense.data[15], 0x06);
        let defaults = module.command(0, &[0x1A, 0, 0x86, 0, 255, 0], &[], 17);
        assert_eq!(defaults.data[15], 0x02);
        assert_eq!(numbers(&mut module, &[(0, "2a000000000000000100")]), [12]);
        assert_eq!(
            numbers(&mut module, &[(1, "000000000000"), (1, "000000000000")]),
            [6, 0]
        );
    }
}
