//! A frame: the sequence header, and the command behind it.

use crate::abort::AbortCode;
use crate::cursor::Cursor;
use crate::object::Object;
use std::fmt;

/// The largest frame that the server takes and the largest it sends.
pub const MOST_REQUEST: usize = 1_500;
pub const MOST_ANSWER: usize = 1_468;

const HEADER_SIZE: usize = 4;
const COMMAND_SIZE: usize = 8;
const RESPONSE: u8 = 0x10;
const ABORTED: u8 = 0x20;

/// The data bytes of the longest write in one frame: behind both headers and
/// index, sub-index and one ignored byte.
pub const MOST_WRITTEN: usize = MOST_REQUEST - HEADER_SIZE - COMMAND_SIZE - 4;

/// Numbers count modulo 64.
pub fn next_number(number: u8) -> u8 {
    number.wrapping_add(1) % 64
}

#[derive(Debug, Clone, Copy, PartialEq, Eq)]
pub enum ReceiveMark {
    None,
    Initialization,
    Valid,
    ErrorResponse,
}

#[derive(Debug, Clone, Copy, PartialEq, Eq)]
pub enum SendMark {
    None,
    Initialization,
    Valid,
    /// Valid, please acknowledge: the server's mark of what it sends again.
    Acknowledge,
}

#[derive(Debug, Clone, Copy, PartialEq, Eq)]
pub struct Header {
    pub receive: u8,
    pub receive_mark: ReceiveMark,
    pub send: u8,
    pub send_mark: SendMark,
}

#[derive(Debug, Clone, Copy, PartialEq, Eq)]
pub enum Segmentation {
    Expedited,
    Initiate,
    Segment,
    Complete,
}

/// The command ids that the programs speak of.
pub mod id {
    pub const NIL: u8 = 0;
    pub const WRITE_BY_INDEX: u8 = 1;
    pub const READ_BY_INDEX: u8 = 2;
}

#[derive(Debug, Clone, PartialEq, Eq)]
pub struct Command {
    pub transaction: u8,
    pub response: bool,
    pub aborted: bool,
    pub segmentation: Segmentation,
    pub id: u8,
    /// The whole size, with an Initiate alone.
    pub total: Option<u32>,
    pub payload: Vec<u8>,
}

#[derive(Debug, Clone, PartialEq, Eq)]
pub struct Frame {
    pub header: Header,
    /// None in a frame of four bytes.
    pub command: Option<Command>,
}

impl Header {
    fn to_bytes(self) -> [u8; HEADER_SIZE] {
        [
            self.receive % 64 * 4 + self.receive_mark as u8,
            self.send % 64 * 4 + self.send_mark as u8,
            0,
            0,
        ]
    }

    fn from_bytes([receive, send, _, _]: [u8; HEADER_SIZE]) -> Header {
        Header {
            receive: receive / 4,
            receive_mark: match receive % 4 {
                0 => ReceiveMark::None,
                1 => ReceiveMark::Initialization,
                2 => ReceiveMark::Valid,
                _ => ReceiveMark::ErrorResponse,
            },
            send: send / 4,
            send_mark: match send % 4 {
                0 => SendMark::None,
                1 => SendMark::Initialization,
                2 => SendMark::Valid,
                _ => SendMark::Acknowledge,
            },
        }
    }
}

impl Command {
    /// A request in one frame.
    pub fn request(transaction: u8, id: u8, payload: Vec<u8>) -> Command {
        Command {
            transaction,
            response: false,
            aborted: false,
            segmentation: Segmentation::Expedited,
            id,
            total: None,
            payload,
        }
    }

    pub fn read(transaction: u8, object: Object) -> Command {
        Command::request(transaction, id::READ_BY_INDEX, named(object, &[]))
    }

    pub fn write(transaction: u8, object: Object, data: &[u8]) -> Command {
        Command::request(transaction, id::WRITE_BY_INDEX, named(object, data))
    }

    /// The client's own abort of the transfer that this command began.
    pub fn abort(&self, code: AbortCode) -> Command {
        Command {
            aborted: true,
            payload: code.0.to_le_bytes().to_vec(),
            ..self.clone()
        }
    }

    fn flags(&self) -> u8 {
        let response = if self.response { RESPONSE } else { 0 };
        let aborted = if self.aborted { ABORTED } else { 0 };
        (self.segmentation as u8) << 6 | response | aborted
    }

    fn to_bytes(&self) -> Vec<u8> {
        let size = (self.payload.len() as u16).to_le_bytes();
        let mut bytes = vec![0, self.transaction, self.flags(), self.id];
        bytes.extend([size[0], size[1], 0, 0]);
        bytes.extend(self.total.into_iter().flat_map(u32::to_le_bytes));
        bytes.extend(&self.payload);
        bytes
    }

    /// None where it is cut short; bytes behind the payload are not looked at.
    fn from_bytes(bytes: &[u8]) -> Option<Command> {
        let mut cursor = Cursor::new(bytes);
        let [_, transaction, flags, id] = cursor.array()?;
        let size = cursor.u16()?;
        cursor.u16()?;
        let segmentation = match flags >> 6 {
            0 => Segmentation::Expedited,
            1 => Segmentation::Initiate,
            2 => Segmentation::Segment,
            _ => Segmentation::Complete,
        };
        let total = match segmentation {
            Segmentation::Initiate => Some(cursor.u32()?),
            _ => None,
        };
        Some(Command {
            transaction,
            response: flags & RESPONSE != 0,
            aborted: flags & ABORTED != 0,
            segmentation,
            id,
            total,
            payload: cursor.take(size.into())?.to_vec(),
        })
    }

    /// The abort code that an aborted command carries, 0 where it has none.
    pub fn abort_code(&self) -> AbortCode {
        AbortCode(Cursor::new(&self.payload).u32().unwrap_or(0))
    }

    /// Whether it is the last piece of an upload.
    pub fn finishes_upload(&self) -> bool {
        self.segmentation == Segmentation::Complete && self.id == id::READ_BY_INDEX && !self.aborted
    }
}

/// Index, sub-index, one byte that is ignored, then the data.
fn named(object: Object, data: &[u8]) -> Vec<u8> {
    let [low, high] = object.index.to_le_bytes();
    [&[low, high, object.sub, 0], data].concat()
}

impl Frame {
    pub fn to_bytes(&self) -> Vec<u8> {
        let mut bytes = self.header.to_bytes().to_vec();
        bytes.extend(self.command.iter().flat_map(Command::to_bytes));
        bytes
    }

    /// None where header or command are cut short.
    pub fn from_bytes(bytes: &[u8]) -> Option<Frame> {
        let mut cursor = Cursor::new(bytes);
        let header = Header::from_bytes(cursor.array()?);
        let command = match cursor.left() {
            0 => None,
            left => Some(Command::from_bytes(cursor.take(left)?)?),
        };
        Some(Frame { header, command })
    }
}

impl fmt::Display for Header {
    fn fmt(&self, f: &mut fmt::Formatter) -> fmt::Result {
        let receive = ["none", "initialization", "valid", "error response"];
        let send = ["none", "initialization", "valid", "please acknowledge"];
        write!(
            f,
            "receive {} ({}), send {} ({})",
            self.receive,
            receive[self.receive_mark as usize],
            self.send,
            send[self.send_mark as usize]
        )
    }
}

impl fmt::Display for Command {
    fn fmt(&self, f: &mut fmt::Formatter) -> fmt::Result {
        match self.id {
            id::NIL => write!(f, "Nil")?,
            id::WRITE_BY_INDEX => write!(f, "WriteByIndex")?,
            id::READ_BY_INDEX => write!(f, "ReadByIndex")?,
            other => write!(f, "id {other:02X}")?,
        }
        write!(f, " {:?}", self.segmentation)?;
        write!(f, "{}", if self.response { " response" } else { "" })?;
        write!(f, "{}", if self.aborted { " aborted" } else { "" })?;
        write!(f, ", transaction {}", self.transaction)?;
        match self.total {
            Some(total) => write!(f, ", {} of {total} bytes", self.payload.len()),
            None => write!(f, ", {} bytes", self.payload.len()),
        }
    }
}

impl fmt::Display for Frame {
    fn fmt(&self, f: &mut fmt::Formatter) -> fmt::Result {
        match &self.command {
            Some(command) => write!(f, "{}; {command}", self.header),
            None => write!(f, "{}; no command", self.header),
        }
    }
}

#[cfg(test)]
mod tests {
    use super::*;
    use crate::hex;

    fn decoded(text: &str) -> Frame {
        Frame::from_bytes(&hex::parse(text).unwrap()).unwrap()
    }

    #[test]
    fn frames_of_the_bench_card() {
        for text in [
            "16 02 00 00",
            "01 01 00 00 00 00 10 00 00 00 00 00",
            "02 06 00 00 00 07 00 02 04 00 00 00 01 20 01 00",
            "06 06 00 00 00 07 10 00 02 00 00 00 34 12",
            "FE 04 00 00 00 07 30 00 04 00 00 00 00 00 02 06",
            "06 06 00 00 00 07 50 02 02 00 00 00 D0 07 00 00 AA BB",
        ] {
            assert_eq!(hex::spaced(&decoded(text).to_bytes()), text);
        }
        let header = decoded("16 02 00 00").header;
        assert_eq!((header.receive, header.send), (5, 0));
        assert_eq!(header.receive_mark, ReceiveMark::Valid);
        let aborted = decoded("FE 04 00 00 00 07 30 00 04 00 00 00 00 00 02 06");
        let code = aborted.command.unwrap().abort_code();
        assert_eq!(code, AbortCode::NO_OBJECT);
    }

    #[test]
    fn the_read_and_the_write_of_the_card() {
        let object = Object {
            index: 0x2001,
            sub: 1,
        };
        assert_eq!(
            hex::spaced(&Command::read(7, object).to_bytes()),
            "00 07 00 02 04 00 00 00 01 20 01 00"
        );
        assert_eq!(
            hex::spaced(&Command::write(7, object, &[0x34, 0x12]).to_bytes()),
            "00 07 00 01 06 00 00 00 01 20 01 00 34 12"
        );
        assert_eq!(MOST_WRITTEN, 1_484);
    }

    #[test]
    fn short_frames_are_none() {
        let whole = decoded("06 06 00 00 00 07 50 02 02 00 00 00 D0 07 00 00 AA BB").to_bytes();
        for length in 0..whole.len() {
            assert_eq!(Frame::from_bytes(&whole[..length]).is_some(), length == 4);
        }
    }

    #[test]
    fn after_63_comes_0() {
        assert_eq!(next_number(63), 0);
        assert_eq!(next_number(0), 1);
    }
}
