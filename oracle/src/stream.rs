//! What the streams share: a reader that takes little-endian fields one by one
//! and knows its place, and a sign of life for long runs.

use std::io::{self, ErrorKind, Read};
use std::time::{Duration, Instant};

/// Why an item could not be read.
#[derive(Debug)]
pub enum Fault {
    /// The stream ends inside the item.
    Cut,
    /// The item's number, or one of its fields, is none of the format's.
    Unknown(&'static str),
    /// The stream could not be read or written.
    Io(io::Error),
}

impl From<io::Error> for Fault {
    fn from(error: io::Error) -> Self {
        match error.kind() {
            ErrorKind::UnexpectedEof => Fault::Cut,
            _ => Fault::Io(error),
        }
    }
}

pub struct Fields<R> {
    source: R,
    offset: u64,
}

impl<R: Read> Fields<R> {
    pub fn new(source: R) -> Self {
        Self { source, offset: 0 }
    }

    /// How many bytes have been taken so far.
    pub fn offset(&self) -> u64 {
        self.offset
    }

    /// The next byte, or nothing at the end of the stream.
    pub fn first(&mut self) -> Result<Option<u8>, Fault> {
        match self.u8() {
            Ok(byte) => Ok(Some(byte)),
            Err(Fault::Cut) => Ok(None),
            Err(fault) => Err(fault),
        }
    }

    pub fn u8(&mut self) -> Result<u8, Fault> {
        Ok(self.array::<1>()?[0])
    }

    pub fn u16(&mut self) -> Result<u16, Fault> {
        Ok(u16::from_le_bytes(self.array()?))
    }

    pub fn u32(&mut self) -> Result<u32, Fault> {
        Ok(u32::from_le_bytes(self.array()?))
    }

    pub fn u64(&mut self) -> Result<u64, Fault> {
        Ok(u64::from_le_bytes(self.array()?))
    }

    /// A byte that is at most `limit`.
    pub fn u8_to(&mut self, limit: u8, name: &'static str) -> Result<u8, Fault> {
        let value = self.u8()?;
        if value > limit {
            Err(Fault::Unknown(name))
        } else {
            Ok(value)
        }
    }

    /// A u16 that is at most `limit`.
    pub fn u16_to(&mut self, limit: u16, name: &'static str) -> Result<u16, Fault> {
        let value = self.u16()?;
        if value > limit {
            Err(Fault::Unknown(name))
        } else {
            Ok(value)
        }
    }

    /// A u32 that is at most `limit`.
    pub fn u32_to(&mut self, limit: usize, name: &'static str) -> Result<usize, Fault> {
        let value = self.u32()? as usize;
        if value > limit {
            Err(Fault::Unknown(name))
        } else {
            Ok(value)
        }
    }

    pub fn flag(&mut self, name: &'static str) -> Result<bool, Fault> {
        Ok(self.u8_to(1, name)? == 1)
    }

    pub fn bytes(&mut self, count: usize) -> Result<Vec<u8>, Fault> {
        let mut bytes = vec![0; count];
        self.source.read_exact(&mut bytes)?;
        self.offset += count as u64;
        Ok(bytes)
    }

    pub fn array<const N: usize>(&mut self) -> Result<[u8; N], Fault> {
        let mut bytes = [0; N];
        self.source.read_exact(&mut bytes)?;
        self.offset += N as u64;
        Ok(bytes)
    }
}

/// Says on standard error how far a run is, at most once in five seconds.
pub(crate) struct Progress {
    count: u64,
    last: Instant,
}

impl Progress {
    pub fn new() -> Self {
        Self {
            count: 0,
            last: Instant::now(),
        }
    }

    pub fn step(&mut self) {
        self.count += 1;
        if self.count & 0xFFFF == 0 && self.last.elapsed() >= Duration::from_secs(5) {
            eprintln!("oracle: {} items", self.count);
            self.last = Instant::now();
        }
    }
}
