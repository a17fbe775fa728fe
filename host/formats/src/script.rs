//! Scripts of calls, as recordings are written and replayed.

use crate::client::Client;
use crate::cursor::Cursor;
use crate::record::{read_table, TABLE_SIZE};
use std::fmt;

const MOST_IMAGE: u32 = 131_072;
const MOST_ANSWER: u32 = 1_600;
const MOST_AREA: u32 = 65_600;
const MOST_RECORDS: u8 = 9;

const REQUEST: u8 = 1;
const TICK: u8 = 2;
const QUERY: u8 = 3;
const IMAGE: u8 = 4;
const TABLE: u8 = 5;
const AREA: u8 = 6;
const LENGTHS: u8 = 7;

/// How much is lent of answer buffer, area (bytes) and table (records).
#[derive(Debug, Clone, Copy, PartialEq, Eq)]
pub struct Lengths {
    pub answer: u32,
    pub area: u32,
    pub table: u8,
}

#[derive(Debug, Clone, PartialEq, Eq)]
pub enum Item {
    Request {
        client: Client,
        clock: u64,
        bytes: Vec<u8>,
    },
    Tick {
        clock: u64,
    },
    Query,
    /// The image lent from here on.
    Image(Vec<u8>),
    /// The table lent from here on.
    Table(Box<[u8; TABLE_SIZE]>),
    /// The byte that the area's pattern begins with.
    Area(u8),
    Lengths(Lengths),
}

/// Why reading ended before the end of the bytes.
#[derive(Debug, Clone, Copy, PartialEq, Eq)]
pub enum Fault {
    /// The bytes end within the item.
    Cut,
    /// No such item, or a field that is none.
    Unknown,
}

/// How the reading of a script ended.
#[derive(Debug, Clone, Copy, PartialEq, Eq)]
pub struct Ending {
    /// The bytes of whole items.
    pub read: usize,
    pub fault: Option<Fault>,
}

impl fmt::Display for Ending {
    fn fmt(&self, f: &mut fmt::Formatter) -> fmt::Result {
        match self.fault {
            None => write!(f, "whole, {} bytes", self.read),
            Some(Fault::Cut) => write!(f, "the item at byte {} is cut short", self.read),
            Some(Fault::Unknown) => write!(f, "an unknown item at byte {}", self.read),
        }
    }
}

/// A request's item, longer ones than 65,535 bytes being no datagram.
pub fn request(client: Client, clock: u64, bytes: &[u8]) -> Vec<u8> {
    let length = u16::try_from(bytes.len()).unwrap_or(u16::MAX);
    let mut item = vec![REQUEST];
    item.extend(client.to_bytes());
    item.extend(clock.to_le_bytes());
    item.extend(length.to_le_bytes());
    item.extend(&bytes[..length.into()]);
    item
}

pub fn tick(clock: u64) -> Vec<u8> {
    let mut item = vec![TICK];
    item.extend(clock.to_le_bytes());
    item
}

pub fn image(image: &[u8]) -> Vec<u8> {
    let mut item = vec![IMAGE];
    item.extend((image.len() as u32).to_le_bytes());
    item.extend(image);
    item
}

impl Item {
    /// Whether it is a call; the others only lend.
    pub fn is_call(&self) -> bool {
        matches!(self, Item::Request { .. } | Item::Tick { .. } | Item::Query)
    }

    pub fn to_bytes(&self) -> Vec<u8> {
        match self {
            Item::Request {
                client,
                clock,
                bytes,
            } => request(*client, *clock, bytes),
            Item::Tick { clock } => tick(*clock),
            Item::Query => vec![QUERY],
            Item::Image(bytes) => image(bytes),
            Item::Table(table) => [&[TABLE], &table[..]].concat(),
            Item::Area(first) => vec![AREA, *first],
            Item::Lengths(lengths) => {
                let mut item = vec![LENGTHS];
                item.extend(lengths.answer.to_le_bytes());
                item.extend(lengths.area.to_le_bytes());
                item.push(lengths.table);
                item
            }
        }
    }
}

/// The whole items of a script in order, and how the reading ended.
pub fn read(bytes: &[u8]) -> (Vec<Item>, Ending) {
    let mut items = Vec::new();
    let mut read = 0;
    while read < bytes.len() {
        let mut cursor = Cursor::new(&bytes[read..]);
        match read_item(&mut cursor) {
            Ok(item) => items.push(item),
            Err(fault) => {
                let fault = Some(fault);
                return (items, Ending { read, fault });
            }
        }
        read = bytes.len() - cursor.left();
    }
    (items, Ending { read, fault: None })
}

fn read_item(cursor: &mut Cursor) -> Result<Item, Fault> {
    match cursor.u8().ok_or(Fault::Cut)? {
        REQUEST => read_request(cursor),
        TICK => Ok(Item::Tick {
            clock: cursor.u64().ok_or(Fault::Cut)?,
        }),
        QUERY => Ok(Item::Query),
        IMAGE => read_image(cursor),
        TABLE => {
            let bytes: [u8; TABLE_SIZE] = cursor.array().ok_or(Fault::Cut)?;
            read_table(&bytes).ok_or(Fault::Unknown)?;
            Ok(Item::Table(Box::new(bytes)))
        }
        AREA => Ok(Item::Area(cursor.u8().ok_or(Fault::Cut)?)),
        LENGTHS => read_lengths(cursor),
        _ => Err(Fault::Unknown),
    }
}

fn read_request(cursor: &mut Cursor) -> Result<Item, Fault> {
    let client = cursor.array().ok_or(Fault::Cut)?;
    let client = Client::from_bytes(client).ok_or(Fault::Unknown)?;
    let clock = cursor.u64().ok_or(Fault::Cut)?;
    let length = cursor.u16().ok_or(Fault::Cut)?;
    let bytes = cursor.take(length.into()).ok_or(Fault::Cut)?.to_vec();
    Ok(Item::Request {
        client,
        clock,
        bytes,
    })
}

fn read_image(cursor: &mut Cursor) -> Result<Item, Fault> {
    let length = cursor.u32().ok_or(Fault::Cut)?;
    if length > MOST_IMAGE {
        return Err(Fault::Unknown);
    }
    let image = cursor.take(length as usize).ok_or(Fault::Cut)?;
    Ok(Item::Image(image.to_vec()))
}

fn read_lengths(cursor: &mut Cursor) -> Result<Item, Fault> {
    let mut number = || cursor.u32().ok_or(Fault::Cut);
    let (answer, area) = (number()?, number()?);
    let table = cursor.u8().ok_or(Fault::Cut)?;
    if answer > MOST_ANSWER || area > MOST_AREA || table > MOST_RECORDS {
        return Err(Fault::Unknown);
    }
    Ok(Item::Lengths(Lengths {
        answer,
        area,
        table,
    }))
}

#[cfg(test)]
mod tests {
    use super::*;
    use crate::record::empty_table;

    fn client() -> Client {
        Client::Udp {
            address: [127, 0, 0, 1].into(),
            port: 4_000,
        }
    }

    fn sample() -> Vec<u8> {
        [
            image(&[0, 0]),
            request(client(), 17, &[0, 1, 0, 0]),
            tick(18),
            vec![QUERY, AREA, 3],
            [&[TABLE], &empty_table()[..]].concat(),
            vec![LENGTHS, 0xBC, 5, 0, 0, 0, 0, 1, 0, 8],
        ]
        .concat()
    }

    #[test]
    fn what_is_written_is_read() {
        let (items, ending) = read(&sample());
        assert_eq!(ending.fault, None);
        assert_eq!(ending.read, sample().len());
        let bytes = vec![0, 1, 0, 0];
        let clock = 17;
        let client = client();
        assert_eq!(
            items,
            [
                Item::Image(vec![0, 0]),
                Item::Request {
                    client,
                    clock,
                    bytes
                },
                Item::Tick { clock: 18 },
                Item::Query,
                Item::Area(3),
                Item::Table(Box::new(empty_table())),
                Item::Lengths(Lengths {
                    answer: 1_468,
                    area: 65_536,
                    table: 8
                }),
            ]
        );
        let written: Vec<Vec<u8>> = items.iter().map(Item::to_bytes).collect();
        assert_eq!(written.concat(), sample());
    }

    #[test]
    fn cut_anywhere_it_gives_the_items_before_the_cut() {
        let whole = read(&sample()).0;
        for length in 0..sample().len() {
            let (items, ending) = read(&sample()[..length]);
            assert_eq!(items, whole[..items.len()]);
            assert_eq!(ending.fault.is_some(), ending.read < length);
            assert_ne!(ending.fault, Some(Fault::Unknown));
        }
    }

    #[test]
    fn what_is_no_item_is_named_by_its_place() {
        let mut bytes = sample();
        let at = bytes.len();
        for wrong in [vec![8], vec![0], [vec![REQUEST, 2], vec![0; 30]].concat()] {
            bytes.truncate(at);
            bytes.extend(wrong);
            let fault = Some(Fault::Unknown);
            assert_eq!(read(&bytes).1, Ending { read: at, fault });
        }
    }
}
