//! What COMMAND and RESET answer.

use std::fmt;

use crate::hex::Hex;

/// A status with sense data.
#[derive(Debug, Clone, Copy, PartialEq, Eq, Default)]
pub struct Sense {
    pub status: u8,
    pub key: u8,
    pub asc: u8,
    pub ascq: u8,
}

impl Sense {
    const fn status(status: u8) -> Self {
        Sense {
            status,
            key: 0,
            asc: 0,
            ascq: 0,
        }
    }

    const fn check(key: u8, asc: u8, ascq: u8) -> Self {
        Sense {
            status: 0x02,
            key,
            asc,
            ascq,
        }
    }
}

/// A condition that a host is told before its next command but INQUIRY; the
/// highest last.
#[derive(Debug, Clone, Copy, PartialEq, Eq, PartialOrd, Ord)]
pub enum Attention {
    ParametersChanged,
    MediumChanged,
    PowerOnOrReset,
}

/// Why a call was not good: the test of the ladder that failed, in its order.
#[derive(Debug, Clone, Copy, PartialEq, Eq)]
pub enum Failure {
    NoSuchHost,
    /// Power is off, or was lost in this call.
    NoPower,
    UnknownCode,
    ShortCdb,
    Control,
    Attention(Attention),
    Reserved,
    Field,
    NotLoaded,
    NotReady,
    Address,
    WriteProtected,
    Barred,
    ListLength,
    Buffer,
    List,
}

impl Failure {
    pub fn number(self) -> u8 {
        match self {
            Failure::NoSuchHost => 1,
            Failure::NoPower => 2,
            Failure::UnknownCode => 3,
            Failure::ShortCdb => 4,
            Failure::Control => 5,
            Failure::Attention(_) => 6,
            Failure::Reserved => 7,
            Failure::Field => 8,
            Failure::NotLoaded => 9,
            Failure::NotReady => 10,
            Failure::Address => 11,
            Failure::WriteProtected => 12,
            Failure::Barred => 13,
            Failure::ListLength => 14,
            Failure::Buffer => 15,
            Failure::List => 16,
        }
    }

    pub fn sense(self) -> Sense {
        match self {
            Failure::NoSuchHost | Failure::NoPower => Sense::status(0xFF),
            Failure::UnknownCode => Sense::check(0x5, 0x20, 0x00),
            Failure::ShortCdb | Failure::Control | Failure::Field => Sense::check(0x5, 0x24, 0x00),
            Failure::Attention(Attention::PowerOnOrReset) => Sense::check(0x6, 0x29, 0x00),
            Failure::Attention(Attention::MediumChanged) => Sense::check(0x6, 0x28, 0x00),
            Failure::Attention(Attention::ParametersChanged) => Sense::check(0x6, 0x2A, 0x01),
            Failure::Reserved => Sense::status(0x18),
            Failure::NotLoaded => Sense::check(0x2, 0x3A, 0x00),
            Failure::NotReady => Sense::check(0x2, 0x04, 0x02),
            Failure::Address => Sense::check(0x5, 0x21, 0x00),
            Failure::WriteProtected => Sense::check(0x7, 0x27, 0x00),
            Failure::Barred => Sense::check(0x5, 0x53, 0x02),
            Failure::ListLength => Sense::check(0x5, 0x1A, 0x00),
            Failure::Buffer => Sense::check(0xB, 0x4B, 0x00),
            Failure::List => Sense::check(0x5, 0x26, 0x00),
        }
    }
}

/// An answer as the recorder prints it.
#[derive(Debug, Clone, PartialEq, Eq)]
pub struct Reply {
    pub number: u8,
    pub sense: Sense,
    /// The bytes put at the front of data-in.
    pub data: Vec<u8>,
}

impl Reply {
    pub fn new(outcome: Result<Vec<u8>, Failure>) -> Self {
        match outcome {
            Ok(data) => Reply {
                number: 0,
                sense: Sense::default(),
                data,
            },
            Err(failure) => Reply {
                number: failure.number(),
                sense: failure.sense(),
                data: Vec::new(),
            },
        }
    }

    pub fn is_good(&self) -> bool {
        self.number == 0
    }
}

impl fmt::Display for Reply {
    fn fmt(&self, f: &mut fmt::Formatter<'_>) -> fmt::Result {
        let Sense {
            status,
            key,
            asc,
            ascq,
        } = self.sense;
        let count = self.data.len();
        write!(
            f,
            "{} {status:02x} {key:02x} {asc:02x} {ascq:02x} {count}",
            self.number
        )?;
        if count > 0 {
            write!(f, " {}", Hex(&self.data))?;
        }
        Ok(())
    }
}
