//! The items of a codec script, as README.md lays them out.

use std::io::{self, Read, Write};

use crate::sdo::command::CommandId;
use crate::stream::{Fault, Fields};

pub const MAX_COMMAND: u16 = 4_096;
pub const MAX_PAYLOAD: u16 = 2_048;
pub const MAX_BUFFER: u16 = 4_096;

#[derive(Clone)]
pub enum Item {
    HeaderDecode(Vec<u8>),
    HeaderEncode(HeaderEncode),
    CommandDecode(Vec<u8>),
    CommandEncode(CommandEncode),
    NextNumber(u8),
}

#[derive(Clone)]
pub struct HeaderEncode {
    pub receive: u8,
    pub receive_mark: u8,
    pub send: u8,
    pub send_mark: u8,
    pub buffer: u8,
}

#[derive(Clone)]
pub struct CommandEncode {
    pub transaction: u8,
    pub response: bool,
    pub aborted: bool,
    pub segmentation: u8,
    pub id: u8,
    pub size: u16,
    pub total: Option<u32>,
    pub payload: Vec<u8>,
    pub buffer: u16,
}

impl CommandEncode {
    /// The bytes that the encoded command takes.
    pub fn needed(&self) -> usize {
        let head = if self.segmentation == 1 { 12 } else { 8 };
        head + self.payload.len()
    }
}

impl Item {
    pub fn write(&self, out: &mut impl Write) -> io::Result<()> {
        match self {
            Item::HeaderDecode(bytes) => {
                assert!(bytes.len() <= 255);
                out.write_all(&[1, bytes.len() as u8])?;
                out.write_all(bytes)
            }
            Item::HeaderEncode(h) => {
                out.write_all(&[2, h.receive, h.receive_mark, h.send, h.send_mark, h.buffer])
            }
            Item::CommandDecode(bytes) => {
                assert!(bytes.len() <= MAX_COMMAND as usize);
                out.write_all(&[3])?;
                out.write_all(&(bytes.len() as u16).to_le_bytes())?;
                out.write_all(bytes)
            }
            Item::CommandEncode(c) => {
                assert!(c.payload.len() <= MAX_PAYLOAD as usize && c.buffer <= MAX_BUFFER);
                out.write_all(&[4, c.transaction, c.response as u8, c.aborted as u8])?;
                out.write_all(&[c.segmentation, c.id])?;
                out.write_all(&c.size.to_le_bytes())?;
                out.write_all(&[c.total.is_some() as u8])?;
                out.write_all(&c.total.unwrap_or(0).to_le_bytes())?;
                out.write_all(&(c.payload.len() as u16).to_le_bytes())?;
                out.write_all(&c.payload)?;
                out.write_all(&c.buffer.to_le_bytes())
            }
            Item::NextNumber(number) => out.write_all(&[5, *number]),
        }
    }

    /// The next item, or nothing at the end of the stream.
    pub fn read(from: &mut Fields<impl Read>) -> Result<Option<Item>, Fault> {
        let Some(kind) = from.first()? else {
            return Ok(None);
        };
        let item = match kind {
            1 => {
                let length = from.u8()?;
                Item::HeaderDecode(from.bytes(length as usize)?)
            }
            2 => Item::HeaderEncode(HeaderEncode {
                receive: from.u8()?,
                receive_mark: from.u8_to(3, "receive mark above 3")?,
                send: from.u8()?,
                send_mark: from.u8_to(3, "send mark above 3")?,
                buffer: from.u8()?,
            }),
            3 => {
                let length = from.u16_to(MAX_COMMAND, "length above 4,096")?;
                Item::CommandDecode(from.bytes(length as usize)?)
            }
            4 => {
                let transaction = from.u8()?;
                let response = from.flag("response above 1")?;
                let aborted = from.flag("aborted above 1")?;
                let segmentation = from.u8_to(3, "segmentation above 3")?;
                let id = from.u8()?;
                if CommandId::try_from(id).is_err() {
                    return Err(Fault::Unknown("command id that is none"));
                }
                let size = from.u16()?;
                let present = from.flag("total present above 1")?;
                // Without a total these four bytes are not looked at.
                let total = from.u32()?;
                let length = from.u16_to(MAX_PAYLOAD, "payload length above 2,048")?;
                let payload = from.bytes(length as usize)?;
                let buffer = from.u16_to(MAX_BUFFER, "buffer length above 4,096")?;
                Item::CommandEncode(CommandEncode {
                    transaction,
                    response,
                    aborted,
                    segmentation,
                    id,
                    size,
                    total: present.then_some(total),
                    payload,
                    buffer,
                })
            }
            5 => Item::NextNumber(from.u8()?),
            _ => return Err(Fault::Unknown("no such item number")),
        };
        Ok(Some(item))
    }
}
