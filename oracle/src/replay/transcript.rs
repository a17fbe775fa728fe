//! One call's part of a transcript, as REPLAY.md lays it out. Nothing is taken
//! for granted: the other side may have written anything.

use std::io::{self, Read};

use super::record::read_client;
use super::table::{RECORDS, Table};
use super::words;
use crate::stream::{Fault, Fields};

pub const RECORD: usize = 40;
pub const TABLE: usize = RECORD * RECORDS;

pub const ANSWER: u8 = 0;
pub const DEADLINE: u8 = 254;
pub const NOTHING: u8 = 255;

#[derive(PartialEq, Eq)]
pub struct Call {
    pub code: u8,
    /// Of an answer; else empty.
    pub client: Vec<u8>,
    pub answer: Vec<u8>,
    /// 0 without one.
    pub deadline: u64,
    pub untouched: u8,
    pub table: [u8; TABLE],
    pub area_sum: u32,
    pub image_sum: u32,
}

/// What a transcript has for the next call.
pub enum Next {
    Call(Box<Call>),
    /// It ends before it.
    End,
    /// It ends inside it.
    Cut,
}

impl Call {
    pub fn next(fields: &mut Fields<impl Read>) -> io::Result<Next> {
        let result = fields.first().and_then(|code| match code {
            Some(code) => Self::read(code, fields).map(|call| Next::Call(Box::new(call))),
            None => Ok(Next::End),
        });
        match result {
            Ok(next) => Ok(next),
            Err(Fault::Io(error)) => Err(error),
            Err(_) => Ok(Next::Cut),
        }
    }

    fn read(code: u8, fields: &mut Fields<impl Read>) -> Result<Self, Fault> {
        let (mut client, mut answer, mut deadline) = (Vec::new(), Vec::new(), 0);
        if code == ANSWER {
            client = fields.bytes(8)?;
            let length = fields.u16()?;
            answer = fields.bytes(length as usize)?;
        } else if code == DEADLINE {
            deadline = fields.u64()?;
        }
        Ok(Self {
            code,
            client,
            answer,
            deadline,
            untouched: fields.u8()?,
            table: fields.array()?,
            area_sum: fields.u32()?,
            image_sum: fields.u32()?,
        })
    }
}

pub fn table_bytes(table: &Table) -> [u8; TABLE] {
    let mut bytes = Vec::new();
    for record in table {
        record.write(&mut bytes);
    }
    bytes.try_into().expect("eight records of 40 bytes")
}

/// A client's eight bytes in words.
pub fn client(bytes: &[u8]) -> String {
    match read_client(&mut Fields::new(bytes)) {
        Ok(client) => words::client(&client),
        Err(_) => format!("no client, {}", words::start(bytes)),
    }
}

/// How a record's field is shown.
#[derive(Clone, Copy)]
enum Show {
    Number,
    Hex,
    Client,
    State,
}

/// A record's fields: name, where it begins and ends, how it is shown.
const FIELDS: [(&str, usize, usize, Show); 16] = [
    ("used", 0, 1, Show::Number),
    ("client", 1, 9, Show::Client),
    ("area number", 9, 10, Show::Number),
    ("send number", 10, 11, Show::Number),
    ("receive number", 11, 12, Show::Number),
    ("state", 12, 13, Show::State),
    ("transaction", 13, 14, Show::Number),
    ("total", 14, 18, Show::Number),
    ("offset", 18, 22, Show::Number),
    ("index", 22, 24, Show::Hex),
    ("sub-index", 24, 25, Show::Number),
    ("deadline there", 25, 26, Show::Number),
    ("deadline", 26, 34, Show::Number),
    ("retries", 34, 38, Show::Number),
    ("stored piece", 38, 39, Show::Number),
    ("zero byte", 39, 40, Show::Number),
];

fn field(bytes: &[u8], show: Show) -> String {
    let number = bytes.iter().rev().fold(0u64, |n, &b| n << 8 | b as u64);
    match show {
        Show::Number => number.to_string(),
        Show::Hex => format!("{number:04X} hex"),
        Show::Client => client(bytes),
        Show::State => {
            let name = words::STATES.get(number as usize + 1);
            name.map_or(format!("none, {number}"), |name| name.to_string())
        }
    }
}

/// Each field in which two records differ, with what both have.
pub fn record_differences(left: &[u8], right: &[u8]) -> Vec<(&'static str, String, String)> {
    let differing = FIELDS
        .iter()
        .filter(|(_, from, to, _)| left[*from..*to] != right[*from..*to]);
    differing
        .map(|&(name, from, to, show)| {
            let (left, right) = (&left[from..to], &right[from..to]);
            (name, field(left, show), field(right, show))
        })
        .collect()
}

/// A record in words, but for its client: the transfer's fields only where
/// one runs.
pub fn record(bytes: &[u8]) -> String {
    let running = matches!(bytes[12], 3 | 4);
    let shown = if running { 3..15 } else { 3..6 };
    let state = field(&bytes[12..13], Show::State);
    let rest: Vec<String> = FIELDS[shown]
        .iter()
        .filter(|(name, ..)| *name != "state")
        .map(|&(name, from, to, show)| format!("{name} {}", field(&bytes[from..to], show)))
        .collect();
    format!("{state}, {}", rest.join(", "))
}

/// The bytes of a client's record in a table, if it has one.
pub fn record_of<'a>(table: &'a [u8; TABLE], client: &[u8]) -> Option<&'a [u8]> {
    let mut records = table.chunks(RECORD);
    records.find(|bytes| bytes[0] == 1 && bytes[1..9] == *client)
}
