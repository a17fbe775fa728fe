//! The server's table of eight connection records as bytes.

use crate::client::Client;
use crate::cursor::Cursor;

pub const RECORDS: usize = 8;
pub const RECORD_SIZE: usize = 40;
pub const TABLE_SIZE: usize = RECORDS * RECORD_SIZE;

/// Where a record's flags and numbers stand that make bytes no record.
const USED: usize = 0;
const STATE: usize = 12;
const HAS_DEADLINE: usize = 25;
const HAS_STORED: usize = 38;

#[derive(Debug, Clone, Copy, PartialEq, Eq)]
pub enum State {
    Closed,
    Opening,
    Established,
    Upload,
    Download,
}

/// What is looked at of a record from outside the server.
#[derive(Debug, Clone, Copy, PartialEq, Eq)]
pub struct Record {
    pub used: bool,
    pub client: Client,
    pub state: State,
    /// When a transfer is due, in microseconds.
    pub deadline: Option<u64>,
}

/// An unused record: receive number 63, all else but the area number 0.
pub fn fresh(area: u8) -> [u8; RECORD_SIZE] {
    let mut record = [0; RECORD_SIZE];
    record[9] = area;
    record[11] = 63;
    record
}

/// The table with nobody connected.
pub fn empty_table() -> [u8; TABLE_SIZE] {
    let mut table = [0; TABLE_SIZE];
    for (area, record) in (0..).zip(table.chunks_exact_mut(RECORD_SIZE)) {
        record.copy_from_slice(&fresh(area));
    }
    table
}

impl Record {
    /// None where the bytes are no record.
    pub fn read(bytes: &[u8; RECORD_SIZE]) -> Option<Record> {
        let state = match bytes[STATE] {
            0 => State::Closed,
            1 => State::Opening,
            2 => State::Established,
            3 => State::Upload,
            4 => State::Download,
            _ => return None,
        };
        let transfers = matches!(state, State::Upload | State::Download);
        let flags = [bytes[HAS_DEADLINE], bytes[HAS_STORED]];
        if bytes[USED] > 1 || (transfers && flags.iter().any(|&flag| flag > 1)) {
            return None;
        }
        let mut cursor = Cursor::new(&bytes[1..]);
        let client = Client::from_bytes(cursor.array()?)?;
        let deadline = Cursor::new(&bytes[HAS_DEADLINE + 1..]).u64()?;
        Some(Record {
            used: bytes[USED] == 1,
            client,
            state,
            deadline: (transfers && flags[0] == 1).then_some(deadline),
        })
    }
}

/// The records of a table's bytes; None where some bytes are no record.
pub fn read_table(bytes: &[u8]) -> Option<Vec<Record>> {
    let records = bytes.chunks_exact(RECORD_SIZE);
    if !records.remainder().is_empty() {
        return None;
    }
    records
        .map(|record| Record::read(record.try_into().ok()?))
        .collect()
}

/// A table's bytes with 0 for those that are not looked at.
pub fn canonical_table(table: &[u8]) -> Vec<u8> {
    let mut bytes = table.to_vec();
    bytes.chunks_exact_mut(RECORD_SIZE).for_each(canonical);
    bytes
}

fn canonical(record: &mut [u8]) {
    const ZERO: usize = RECORD_SIZE - 1;
    const UDP_ZERO: usize = 8;
    record[ZERO] = 0;
    if record[1] == 1 {
        record[UDP_ZERO] = 0;
    }
    if record[STATE] < 3 {
        record[STATE + 1..].fill(0);
    } else if record[HAS_DEADLINE] == 0 {
        record[HAS_DEADLINE + 1..][..8].fill(0);
    }
}

#[cfg(test)]
mod tests {
    use super::*;

    #[test]
    fn the_empty_table_holds_eight_unused_records() {
        let records = read_table(&empty_table()).unwrap();
        assert_eq!(records.len(), RECORDS);
        assert!(records.iter().all(|record| !record.used
            && record.state == State::Closed
            && record.deadline.is_none()));
    }

    #[test]
    fn flags_are_looked_at_in_transfers_alone() {
        let mut bytes = fresh(0);
        bytes[HAS_DEADLINE] = 2;
        bytes[HAS_STORED] = 9;
        assert!(Record::read(&bytes).is_some());
        bytes[STATE] = 3;
        assert_eq!(Record::read(&bytes), None);
        bytes[HAS_STORED] = 1;
        bytes[HAS_DEADLINE] = 1;
        bytes[HAS_DEADLINE + 1] = 5;
        assert_eq!(Record::read(&bytes).unwrap().deadline, Some(5));
    }

    #[test]
    fn what_is_not_looked_at_is_zero() {
        let mut bytes = [1; RECORD_SIZE];
        bytes[HAS_DEADLINE] = 0;
        bytes[STATE] = 4;
        canonical(&mut bytes);
        let zeros: Vec<usize> = (0..RECORD_SIZE).filter(|&at| bytes[at] == 0).collect();
        assert_eq!(zeros, [8, 25, 26, 27, 28, 29, 30, 31, 32, 33, 39]);
        bytes[STATE] = 2;
        canonical(&mut bytes);
        assert_eq!(bytes[STATE + 1..], [0; 27]);
    }
}
