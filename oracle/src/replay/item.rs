//! The items of a script, as REPLAY.md lays them out.

use std::io::Read;

use super::record::{Record, read_client, write_client};
use super::table::{RECORDS, Table};
use crate::sdo::server::SdoClientInfo;
use crate::stream::{Fault, Fields};

pub const MAX_SCRIPT_IMAGE: usize = 131_072;

#[derive(Clone)]
pub enum Item {
    Request {
        client: SdoClientInfo,
        clock: u64,
        bytes: Vec<u8>,
    },
    Tick(u64),
    Query,
    Image(Vec<u8>),
    Table(Box<Table>),
    Area(u8),
    Lengths(Lengths),
}

/// What is lent of each.
#[derive(Clone, Copy)]
pub struct Lengths {
    pub answer: usize,
    pub area: usize,
    pub table: usize,
}

impl Item {
    /// Calls have a part in the transcript; the other items only lend.
    pub fn is_call(&self) -> bool {
        matches!(self, Self::Request { .. } | Self::Tick(_) | Self::Query)
    }

    /// The next item, or nothing at the end of the script.
    pub fn read(fields: &mut Fields<impl Read>) -> Result<Option<Self>, Fault> {
        let Some(number) = fields.first()? else {
            return Ok(None);
        };
        Ok(Some(match number {
            1 => {
                let client = read_client(fields)?;
                let clock = fields.u64()?;
                let length = fields.u16()? as usize;
                let bytes = fields.bytes(length)?;
                Self::Request {
                    client,
                    clock,
                    bytes,
                }
            }
            2 => Self::Tick(fields.u64()?),
            3 => Self::Query,
            4 => {
                let length = fields.u32_to(MAX_SCRIPT_IMAGE, "image length")?;
                Self::Image(fields.bytes(length)?)
            }
            5 => {
                let mut table = Box::new([Record::unused(0); RECORDS]);
                for record in table.iter_mut() {
                    *record = Record::read(fields)?;
                }
                Self::Table(table)
            }
            6 => Self::Area(fields.u8()?),
            7 => Self::Lengths(Lengths {
                answer: fields.u32_to(1_600, "answer length")?,
                area: fields.u32_to(65_600, "area length")?,
                table: fields.u8_to(9, "table length")? as usize,
            }),
            _ => return Err(Fault::Unknown("item number")),
        }))
    }

    pub fn write(&self, out: &mut Vec<u8>) {
        match self {
            Self::Request {
                client,
                clock,
                bytes,
            } => {
                out.push(1);
                write_client(client, out);
                out.extend(clock.to_le_bytes());
                let length = u16::try_from(bytes.len()).expect("a request's length is a u16");
                out.extend(length.to_le_bytes());
                out.extend(bytes);
            }
            Self::Tick(clock) => {
                out.push(2);
                out.extend(clock.to_le_bytes());
            }
            Self::Query => out.push(3),
            Self::Image(image) => {
                assert!(image.len() <= MAX_SCRIPT_IMAGE);
                out.push(4);
                out.extend((image.len() as u32).to_le_bytes());
                out.extend(image);
            }
            Self::Table(table) => {
                out.push(5);
                for record in table.iter() {
                    record.write(out);
                }
            }
            Self::Area(base) => out.extend([6, *base]),
            Self::Lengths(lengths) => {
                out.push(7);
                out.extend((lengths.answer as u32).to_le_bytes());
                out.extend((lengths.area as u32).to_le_bytes());
                out.push(lengths.table as u8);
            }
        }
    }
}
