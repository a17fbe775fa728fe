//! The cheap signal of what a script reached: for each call a tuple of what it
//! met, what came out and what it left.

use formats::record::{RECORD_SIZE, TABLE_SIZE};
use formats::script::Item;
use std::collections::HashSet;

/// Where a record has its state, and what stands for no record.
const STATE: usize = 12;
const NO_RECORD: u8 = 5;

/// An answer's place in a transcript, and the bytes of an answer's headers.
const ANSWER: usize = 11;
const CODE: usize = 12;

#[derive(Debug, Clone, Copy, PartialEq, Eq, Hash)]
pub struct Tuple {
    /// 1 request, 2 tick, 3 query.
    kind: u8,
    outcome: u8,
    /// The client's state before and after.
    before: u8,
    after: u8,
    /// Receive and send mark of the request.
    marks: u8,
    /// Flags and id of the answer's command.
    answered: [u8; 2],
    /// Of an aborted answer.
    abort: u32,
}

#[derive(Default)]
pub struct Seen {
    tuples: HashSet<Tuple>,
}

impl Seen {
    /// Whether the tuple is a new one.
    pub fn note(&mut self, tuple: Tuple) -> bool {
        self.tuples.insert(tuple)
    }

    pub fn count(&self) -> usize {
        self.tuples.len()
    }
}

impl Tuple {
    /// Of a call: the table that it was lent, and its part of a transcript.
    pub fn of(item: &Item, table: &[u8; TABLE_SIZE], call: &[u8]) -> Tuple {
        let outcome = call[0];
        let (kind, client, marks) = match item {
            Item::Request { client, bytes, .. } => (1, Some(client.to_bytes()), marks(bytes)),
            Item::Tick { .. } => (2, (outcome == 0).then(|| client_of(call)), 0),
            _ => (3, None, 0),
        };
        let state = |table: &[u8]| client.map_or(NO_RECORD, |client| state_in(table, client));
        let command = match outcome {
            0 => &call[ANSWER + 4..],
            _ => &[0; CODE],
        };
        let aborted = command[2] & 0x20 != 0 && command[4] == 4;
        Tuple {
            kind,
            outcome,
            before: state(table),
            after: state(&table_of(call)),
            marks,
            answered: [command[2], command[3]],
            abort: if aborted { code(command) } else { 0 },
        }
    }
}

fn code(command: &[u8]) -> u32 {
    command[8..CODE]
        .iter()
        .rev()
        .fold(0, |code, &byte| code << 8 | u32::from(byte))
}

fn marks(request: &[u8]) -> u8 {
    match request {
        [receive, send, ..] => receive % 4 * 4 + send % 4,
        _ => 0,
    }
}

fn client_of(call: &[u8]) -> [u8; 8] {
    let mut client = [0; 8];
    client.copy_from_slice(&call[1..9]);
    client
}

/// The table in a call's part of a transcript: two sums stand behind it.
pub fn table_of(call: &[u8]) -> [u8; TABLE_SIZE] {
    let mut table = [0; TABLE_SIZE];
    let end = call.len() - 8;
    table.copy_from_slice(&call[end - TABLE_SIZE..end]);
    table
}

fn state_in(table: &[u8], client: [u8; 8]) -> u8 {
    let mut records = table.chunks_exact(RECORD_SIZE);
    let own = records.find(|record| record[0] == 1 && record[1..9] == client);
    own.map_or(NO_RECORD, |record| record[STATE])
}
