//! The script language: one call a line.

use std::fmt;

use crate::hex::{self, Hex};
use crate::options::decimal;

/// The most bytes of data-out, and of data-in.
pub const MOST_DATA: usize = 33_553_920;
const DEFAULT_ROOM: usize = 65_536;

#[derive(Debug, Clone, PartialEq, Eq)]
pub enum Call {
    Reset,
    Command(Command),
}

#[derive(Debug, Clone, PartialEq, Eq)]
pub struct Command {
    pub host: u32,
    pub cdb: Vec<u8>,
    pub out: Data,
    /// The bytes of data-in.
    pub room: usize,
}

impl Command {
    pub fn new(host: u32, cdb: Vec<u8>) -> Self {
        Command {
            host,
            cdb,
            out: Data::default(),
            room: DEFAULT_ROOM,
        }
    }

    pub fn with_out(self, out: Data) -> Self {
        Command { out, ..self }
    }

    pub fn with_room(self, room: usize) -> Self {
        Command { room, ..self }
    }
}

/// Bytes, written as parts.
#[derive(Debug, Clone, PartialEq, Eq, Default)]
pub struct Data {
    parts: Vec<Part>,
}

#[derive(Debug, Clone, PartialEq, Eq)]
pub enum Part {
    Bytes(Vec<u8>),
    Repeated(u8, usize),
}

impl Part {
    fn len(&self) -> usize {
        match self {
            Part::Bytes(bytes) => bytes.len(),
            Part::Repeated(_, count) => *count,
        }
    }

    /// Parses hex digits, or BYTExCOUNT.
    fn parse(text: &str) -> Option<Part> {
        let part = match text.split_once('x') {
            None => Part::Bytes(hex::parse(text)?),
            Some((byte, count)) => match hex::parse(byte)?[..] {
                [byte] => Part::Repeated(byte, usize::try_from(decimal(count)?).ok()?),
                _ => return None,
            },
        };
        (!text.is_empty()).then_some(part)
    }
}

impl Data {
    pub fn from_parts(parts: impl IntoIterator<Item = Part>) -> Self {
        Data {
            parts: parts.into_iter().filter(|part| part.len() > 0).collect(),
        }
    }

    pub fn repeated(byte: u8, count: usize) -> Self {
        Data::from_parts([Part::Repeated(byte, count)])
    }

    pub fn len(&self) -> usize {
        self.parts.iter().map(Part::len).sum()
    }

    pub fn is_empty(&self) -> bool {
        self.len() == 0
    }

    pub fn bytes(&self) -> Vec<u8> {
        let mut bytes = Vec::with_capacity(self.len());
        for part in &self.parts {
            match part {
                Part::Bytes(given) => bytes.extend(given),
                Part::Repeated(byte, count) => bytes.resize(bytes.len() + count, *byte),
            }
        }
        bytes
    }

    /// The first `len` bytes.
    pub fn cut(&self, len: usize) -> Data {
        let mut left = len;
        Data::from_parts(self.parts.iter().map(|part| {
            let taken = left.min(part.len());
            left -= taken;
            match part {
                Part::Bytes(bytes) => Part::Bytes(bytes[..taken].to_vec()),
                Part::Repeated(byte, _) => Part::Repeated(*byte, taken),
            }
        }))
    }

    pub fn joined(mut self, more: Data) -> Data {
        self.parts.extend(more.parts);
        self
    }

    fn parse(word: &str) -> Result<Data, String> {
        let mut parts = Vec::new();
        let mut len = 0usize;
        for text in word.split('+') {
            let part = Part::parse(text).ok_or_else(|| {
                format!("`{text}`: expected hex digits, two for each byte, or BYTExCOUNT")
            })?;
            len = len.saturating_add(part.len());
            parts.push(part);
        }
        if len > MOST_DATA {
            return Err(format!("expected at most {MOST_DATA} bytes of data-out"));
        }
        Ok(Data::from_parts(parts))
    }
}

impl fmt::Display for Data {
    fn fmt(&self, f: &mut fmt::Formatter<'_>) -> fmt::Result {
        for (index, part) in self.parts.iter().enumerate() {
            if index > 0 {
                f.write_str("+")?;
            }
            match part {
                Part::Bytes(bytes) => write!(f, "{}", Hex(bytes))?,
                Part::Repeated(byte, count) => write!(f, "{byte:02x}x{count}")?,
            }
        }
        Ok(())
    }
}

impl fmt::Display for Call {
    fn fmt(&self, f: &mut fmt::Formatter<'_>) -> fmt::Result {
        let command = match self {
            Call::Reset => return f.write_str("reset"),
            Call::Command(command) => command,
        };
        write!(f, "command {} ", command.host)?;
        match &command.cdb[..] {
            [] => f.write_str("-")?,
            cdb => write!(f, "{}", Hex(cdb))?,
        }
        if !command.out.is_empty() {
            write!(f, " out {}", command.out)?;
        }
        if command.room != DEFAULT_ROOM {
            write!(f, " in {}", command.room)?;
        }
        Ok(())
    }
}

/// The words of a line, set apart by spaces or tabs.
pub fn words(line: &str) -> impl Iterator<Item = &str> {
    line.split([' ', '\t']).filter(|word| !word.is_empty())
}

/// Blank lines and comments.
pub fn is_skipped(line: &str) -> bool {
    line.starts_with('#') || words(line).next().is_none()
}

/// Parses one line that is not skipped.
pub fn parse_line(line: &str) -> Result<Call, String> {
    let words: Vec<&str> = words(line).collect();
    match words[..] {
        ["reset"] => Ok(Call::Reset),
        ["command", host, cdb, ref rest @ ..] => {
            let command = Command::new(parse_host(host)?, parse_cdb(cdb)?);
            Ok(Call::Command(parse_buffers(command, rest)?))
        }
        _ => Err("expected `reset` or `command HOST CDB [out DATA] [in N]`".to_string()),
    }
}

/// Parses the lines of a script, each with its number.
pub fn parse<'a>(lines: impl IntoIterator<Item = (usize, &'a str)>) -> Result<Vec<Call>, String> {
    lines
        .into_iter()
        .filter(|(_, line)| !is_skipped(line))
        .map(|(number, line)| parse_line(line).map_err(|error| format!("line {number}: {error}")))
        .collect()
}

/// The lines of a text with their numbers, from 1.
pub fn numbered(text: &str) -> impl Iterator<Item = (usize, &str)> {
    (1..).zip(text.lines())
}

fn parse_host(word: &str) -> Result<u32, String> {
    decimal(word)
        .and_then(|host| u32::try_from(host).ok())
        .ok_or_else(|| format!("`{word}`: expected a host, 0 to {}", u32::MAX))
}

fn parse_cdb(word: &str) -> Result<Vec<u8>, String> {
    match word {
        "-" => Ok(Vec::new()),
        _ => hex::parse(word)
            .ok_or_else(|| format!("`{word}`: expected a CDB in hex digits, two for each byte")),
    }
}

fn parse_buffers(command: Command, rest: &[&str]) -> Result<Command, String> {
    match *rest {
        [] => Ok(command),
        ["in", room] => Ok(command.with_room(parse_room(room)?)),
        ["out", data] => Ok(command.with_out(Data::parse(data)?)),
        ["out", data, "in", room] => Ok(command
            .with_out(Data::parse(data)?)
            .with_room(parse_room(room)?)),
        _ => Err("expected `[out DATA] [in N]` after the CDB".to_string()),
    }
}

fn parse_room(word: &str) -> Result<usize, String> {
    decimal(word)
        .and_then(|room| usize::try_from(room).ok())
        .filter(|&room| room <= MOST_DATA)
        .ok_or_else(|| format!("`{word}`: expected the bytes of data-in, 0 to {MOST_DATA}"))
}

#[cfg(test)]
mod tests {
    use super::*;

    #[test]
    fn a_call_reads_as_it_is_written() {
        for line in [
            "reset",
            "command 0 -",
            "command 4294967295 2a080000000500000200 out 01020304+abx508+00x512",
            "command 1 120000002400 in 36",
            "command 1 15000000000000 out ff in 0",
        ] {
            assert_eq!(parse_line(line).unwrap().to_string(), line);
        }
    }

    #[test]
    fn malformed_lines_are_refused() {
        for line in [
            "reset now",
            "command",
            "command 0",
            "command -1 00",
            "command 0 0",
            "command 0 0g",
            "command 0 00 out",
            "command 0 00 out abcdx2",
            "command 0 00 out abx",
            "command 0 00 out ab+",
            "command 0 00 out 00x33553920+00",
            "command 0 00 in 33553921",
            "command 0 00 in 5 out 00",
            "read 5",
        ] {
            assert!(parse_line(line).is_err(), "{line}");
        }
    }

    #[test]
    fn data_is_cut_from_the_front() {
        let data = Data::from_parts([Part::Bytes(vec![1, 2]), Part::Repeated(3, 4)]);
        assert_eq!(data.bytes(), [1, 2, 3, 3, 3, 3]);
        assert_eq!(data.cut(4).bytes(), [1, 2, 3, 3]);
        assert_eq!(data.cut(1).to_string(), "01");
    }
}
