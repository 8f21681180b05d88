//! The module: MAKE, COMMAND and RESET.

use crate::cdb::{Command, Extent, StartStop, CAPACITY_BYTES, INQUIRY_DATA, MODE_BYTES};
use crate::store::{Fault, Store, BLOCK_BYTES};
use crate::unit::{Condition, Failure, LogicalUnit, Settings, HOSTS};

pub struct Module<S> {
    store: S,
    unit: LogicalUnit,
}

impl<S: Store> Module<S> {
    pub fn make(mut store: S) -> Self {
        let _ = store.flush();
        Module {
            store,
            unit: LogicalUnit::new(),
        }
    }

    pub fn store(&self) -> &S {
        &self.store
    }

    pub fn reset(&mut self) -> Result<usize, Failure> {
        if !self.store.power() {
            return Err(Failure::PowerOff);
        }
        self.unit.reset();
        Ok(0)
    }

    /// The count of bytes put at the front of data-in, or why not.
    pub fn command(
        &mut self,
        host: u32,
        cdb: &[u8],
        data_out: &[u8],
        data_in: &mut [u8],
    ) -> Result<usize, Failure> {
        match self.judge(host, cdb, data_out, data_in.len()) {
            Ok((host, command)) => self
                .run(host, command, data_out, data_in)
                .map_err(|_| Failure::PowerOff),
            Err(failure) => {
                if let Failure::UnitAttention(_) = failure {
                    self.unit.attentions[host as usize] = None;
                }
                Err(failure)
            }
        }
    }

    /// The tests that a command passes; the first that fails gives the answer.
    fn judge(
        &self,
        host: u32,
        cdb: &[u8],
        data_out: &[u8],
        room: usize,
    ) -> Result<(usize, Command), Failure> {
        let unit = &self.unit;
        let host = host as usize;
        if host >= HOSTS {
            return Err(Failure::NoSuchHost);
        }
        if !self.store.power() {
            return Err(Failure::PowerOff);
        }
        let command = Command::decode(cdb)?;
        if let Some(attention) = unit.attentions[host] {
            if !matches!(command, Command::Inquiry { .. }) {
                return Err(Failure::UnitAttention(attention));
            }
        }
        if unit.is_held_by_other(host) && !command.passes_reservation() {
            return Err(Failure::ReservationConflict);
        }
        if !command.has_valid_fields() {
            return Err(Failure::InvalidField);
        }
        if command.uses_medium() {
            if !unit.loaded {
                return Err(Failure::MediumNotPresent);
            }
            if !unit.condition.is_ready() {
                return Err(Failure::NotReady);
            }
        }
        let count = self.store.count();
        if command
            .extent()
            .is_some_and(|extent| !extent.ends_within(count))
        {
            return Err(Failure::AddressOutOfRange);
        }
        if matches!(command, Command::Write { .. }) && unit.settings.writed {
            return Err(Failure::WriteProtected);
        }
        if matches!(command, Command::StartStopUnit(request) if request.unloads())
            && unit.bars.contains(&true)
        {
            return Err(Failure::RemovalPrevented);
        }
        if matches!(command, Command::ModeSelect { length } if length != 0 && length != MODE_BYTES)
        {
            return Err(Failure::ListLength);
        }
        if data_out.len() < command.bytes_taken() || room < command.bytes_returned() {
            return Err(Failure::DataPhase);
        }
        if matches!(command, Command::ModeSelect { length } if length != 0 && !is_mode_list(data_out))
        {
            return Err(Failure::InvalidParameter);
        }
        Ok((host, command))
    }

    fn run(
        &mut self,
        host: usize,
        command: Command,
        data_out: &[u8],
        data_in: &mut [u8],
    ) -> Result<usize, Fault> {
        match command {
            Command::TestUnitReady => {}
            Command::Inquiry { allocation, .. } => {
                return Ok(deliver(data_in, INQUIRY_DATA, allocation));
            }
            Command::ModeSelect { length: 0 } => {}
            Command::ModeSelect { .. } => self.mode_select(host, data_out)?,
            Command::Reserve => self.unit.holder = Some(host),
            Command::Release => {
                if self.unit.holder == Some(host) {
                    self.unit.holder = None;
                }
            }
            Command::ModeSense {
                control,
                allocation,
                ..
            } => {
                let settings = if control == 2 {
                    Settings::DEFAULTS
                } else {
                    self.unit.settings
                };
                let data = mode_data(settings, self.store.count());
                return Ok(deliver(data_in, &data, allocation));
            }
            Command::StartStopUnit(request) => self.start_stop(request)?,
            Command::PreventAllow { prevent } => self.unit.bars[host] = prevent == 1,
            Command::ReadCapacity => {
                let (last, size) = data_in[..CAPACITY_BYTES].split_at_mut(4);
                last.copy_from_slice(&(self.store.count() - 1).to_be_bytes());
                size.copy_from_slice(&(BLOCK_BYTES as u32).to_be_bytes());
                return Ok(CAPACITY_BYTES);
            }
            Command::Read { extent, .. } => {
                for (block, into) in extent.blocks().zip(data_in.chunks_exact_mut(BLOCK_BYTES)) {
                    into.copy_from_slice(self.store.read_block(block)?);
                }
                return Ok(extent.byte_count());
            }
            Command::Write { force, extent, .. } => self.write(force, extent, data_out)?,
            Command::Verify { extent, .. } => {
                for block in extent.blocks() {
                    self.store.force_block(block)?;
                    self.store.read_block(block)?;
                }
            }
            Command::SynchronizeCache => self.store.flush()?,
        }
        Ok(0)
    }

    fn write(&mut self, force: bool, extent: Extent, data: &[u8]) -> Result<(), Fault> {
        let force = force || self.unit.settings.wcd;
        let (contents, _) = data.as_chunks::<BLOCK_BYTES>();
        for (block, content) in extent.blocks().zip(contents) {
            self.store.put_block(block, content)?;
            if force {
                self.store.force_block(block)?;
            }
        }
        Ok(())
    }

    fn mode_select(&mut self, host: usize, list: &[u8]) -> Result<(), Fault> {
        let settings = Settings {
            wcd: list[6] & 1 != 0,
            performance: list[14],
            writed: list[15] & 4 != 0,
        };
        if settings.wcd && !self.unit.settings.wcd {
            self.store.flush()?;
        }
        self.unit.change_settings(host, settings);
        Ok(())
    }

    fn start_stop(&mut self, request: StartStop) -> Result<(), Fault> {
        let condition = match (request.condition, request.start) {
            (2, _) => Condition::Idle,
            (3, _) => Condition::Standby,
            (5, _) => Condition::Sleep,
            (0, false) => Condition::Stopped,
            _ => Condition::Active,
        };
        if matches!(condition, Condition::Sleep | Condition::Stopped) {
            self.store.flush()?;
        }
        self.unit.condition = condition;
        if request.unloads() {
            self.unit.loaded = false;
        } else if request.condition == 0 && request.load_eject {
            self.unit.load();
        }
        Ok(())
    }
}

/// Puts at most `allocation` of the bytes at the front of data-in, and says how many.
fn deliver(data_in: &mut [u8], bytes: &[u8], allocation: usize) -> usize {
    let count = allocation.min(bytes.len());
    data_in[..count].copy_from_slice(&bytes[..count]);
    count
}

fn is_mode_list(list: &[u8]) -> bool {
    list[1..4] == [0, 0, 0] && list[4] & 0x3f == 0x06 && list[5] == 0x0b
}

fn mode_data(settings: Settings, count: u32) -> [u8; MODE_BYTES] {
    let [a, b, c, d] = count.to_be_bytes();
    let wcd = u8::from(settings.wcd);
    let writed = u8::from(settings.writed) << 2;
    [
        0x10,
        0,
        0,
        0,
        0x86,
        0x0b,
        wcd,
        2,
        0,
        0,
        a,
        b,
        c,
        d,
        settings.performance,
        writed | 2,
        0,
    ]
}
