//! Commands taken out of their CDBs.

use std::ops::Range;

use crate::store::BLOCK_BYTES;
use crate::unit::Failure;

pub const INQUIRY_DATA: &[u8; 36] = b"\x0e\x80\x04\x02\x1f\0\0\0BERGBAHNBRAKE LOG MODULE0100";
pub const MODE_BYTES: usize = 17;
pub const CAPACITY_BYTES: usize = 8;

#[derive(Debug, Clone, Copy, PartialEq, Eq)]
pub struct Extent {
    pub address: u32,
    pub length: u16,
}

impl Extent {
    pub fn ends_within(self, count: u32) -> bool {
        u64::from(self.address) + u64::from(self.length) <= u64::from(count)
    }

    /// The blocks, once their end is known to be within the count.
    pub fn blocks(self) -> Range<u32> {
        self.address..self.address + u32::from(self.length)
    }

    pub fn byte_count(self) -> usize {
        BLOCK_BYTES * usize::from(self.length)
    }
}

#[derive(Debug, Clone, Copy, PartialEq, Eq)]
pub struct StartStop {
    pub condition: u8,
    pub start: bool,
    pub load_eject: bool,
}

impl StartStop {
    pub fn unloads(self) -> bool {
        self.condition == 0 && !self.start && self.load_eject
    }
}

#[derive(Debug, Clone, Copy, PartialEq, Eq)]
pub enum Command {
    TestUnitReady,
    Inquiry {
        vital: bool,
        page: u8,
        allocation: usize,
    },
    ModeSelect {
        length: usize,
    },
    Reserve,
    Release,
    ModeSense {
        control: u8,
        page: u8,
        allocation: usize,
    },
    StartStopUnit(StartStop),
    PreventAllow {
        prevent: u8,
    },
    ReadCapacity,
    Read {
        relative: bool,
        extent: Extent,
    },
    Write {
        relative: bool,
        force: bool,
        extent: Extent,
    },
    Verify {
        relative: bool,
        extent: Extent,
    },
    SynchronizeCache,
}

impl Command {
    pub fn decode(cdb: &[u8]) -> Result<Command, Failure> {
        match cdb.first() {
            Some(0x00 | 0x12 | 0x15 | 0x16 | 0x17 | 0x1a | 0x1b | 0x1e) => {
                let cdb = cdb.first_chunk().ok_or(Failure::ShortCdb)?;
                Command::decode_six(cdb)
            }
            Some(0x25 | 0x28 | 0x2a | 0x2f | 0x35) => {
                let cdb = cdb.first_chunk().ok_or(Failure::ShortCdb)?;
                Command::decode_ten(cdb)
            }
            _ => Err(Failure::InvalidOpcode),
        }
    }

    fn decode_six(cdb: &[u8; 6]) -> Result<Command, Failure> {
        let [code, byte1, byte2, _, byte4, control] = *cdb;
        if control != 0 {
            return Err(Failure::ControlSet);
        }
        let allocation = usize::from(byte4);
        Ok(match code {
            0x00 => Command::TestUnitReady,
            0x12 => Command::Inquiry {
                vital: byte1 & 1 != 0,
                page: byte2,
                allocation,
            },
            0x15 => Command::ModeSelect { length: allocation },
            0x16 => Command::Reserve,
            0x17 => Command::Release,
            0x1a => Command::ModeSense {
                control: byte2 >> 6,
                page: byte2 & 0x3f,
                allocation,
            },
            0x1b => Command::StartStopUnit(StartStop {
                condition: byte4 >> 4,
                start: byte4 & 1 != 0,
                load_eject: byte4 & 2 != 0,
            }),
            _ => Command::PreventAllow { prevent: byte4 & 3 },
        })
    }

    fn decode_ten(cdb: &[u8; 10]) -> Result<Command, Failure> {
        let [code, byte1, a, b, c, d, _, high, low, control] = *cdb;
        if control != 0 {
            return Err(Failure::ControlSet);
        }
        let relative = byte1 & 1 != 0;
        let extent = Extent {
            address: u32::from_be_bytes([a, b, c, d]),
            length: u16::from_be_bytes([high, low]),
        };
        Ok(match code {
            0x25 => Command::ReadCapacity,
            0x28 => Command::Read { relative, extent },
            0x2a => Command::Write {
                relative,
                force: byte1 & 8 != 0,
                extent,
            },
            0x2f => Command::Verify { relative, extent },
            _ => Command::SynchronizeCache,
        })
    }

    /// Is it served while another host holds the reservation?
    pub fn passes_reservation(self) -> bool {
        match self {
            Command::Inquiry { .. } | Command::Release | Command::ReadCapacity => true,
            Command::PreventAllow { prevent } => prevent == 0,
            Command::StartStopUnit(request) => request.condition == 0 && request.start,
            _ => false,
        }
    }

    pub fn has_valid_fields(self) -> bool {
        match self {
            Command::Inquiry { vital, page, .. } => !vital && page == 0,
            Command::ModeSense { control, page, .. } => control != 1 && matches!(page, 0x06 | 0x3f),
            Command::StartStopUnit(request) => matches!(request.condition, 0..=3 | 5 | 7),
            Command::PreventAllow { prevent } => prevent <= 1,
            Command::Read { relative, .. }
            | Command::Write { relative, .. }
            | Command::Verify { relative, .. } => !relative,
            _ => true,
        }
    }

    pub fn uses_medium(self) -> bool {
        matches!(
            self,
            Command::TestUnitReady
                | Command::ReadCapacity
                | Command::Read { .. }
                | Command::Write { .. }
                | Command::Verify { .. }
                | Command::SynchronizeCache
        )
    }

    pub fn extent(self) -> Option<Extent> {
        match self {
            Command::Read { extent, .. }
            | Command::Write { extent, .. }
            | Command::Verify { extent, .. } => Some(extent),
            _ => None,
        }
    }

    /// How many bytes of data-out it takes.
    pub fn bytes_taken(self) -> usize {
        match self {
            Command::ModeSelect { length } => length,
            Command::Write { extent, .. } => extent.byte_count(),
            _ => 0,
        }
    }

    /// How many bytes it returns.
    pub fn bytes_returned(self) -> usize {
        match self {
            Command::Inquiry { allocation, .. } => allocation.min(INQUIRY_DATA.len()),
            Command::ModeSense { allocation, .. } => allocation.min(MODE_BYTES),
            Command::ReadCapacity => CAPACITY_BYTES,
            Command::Read { extent, .. } => extent.byte_count(),
            _ => 0,
        }
    }
}
