//! The table: eight records, and when document 01 calls them sound.

use super::record::{Record, State, Transfer};

pub const RECORDS: usize = 8;

pub type Table = [Record; RECORDS];

/// The empty table at the start: area numbers 0 to 7 in order.
pub fn empty() -> Table {
    core::array::from_fn(|n| Record::unused(n as u8))
}

pub fn is_sound(table: &Table) -> bool {
    let used = table.iter().take_while(|record| record.used).count();
    let (used, unused) = table.split_at(used);
    let ordered = used.windows(2).all(|pair| pair[0].client < pair[1].client);
    let fresh = unused
        .iter()
        .all(|record| *record == Record::unused(record.area));
    let numbers = (0..RECORDS as u8).all(|n| table.iter().any(|record| record.area == n));
    ordered && fresh && numbers && used.iter().all(record_is_sound)
}

fn record_is_sound(record: &Record) -> bool {
    record.send <= 63
        && record.receive <= 63
        && match &record.state {
            State::Closed | State::Opening | State::Established => true,
            State::Upload(transfer) => upload_is_sound(transfer),
            State::Download(transfer) => download_is_sound(transfer),
        }
}

fn upload_is_sound(transfer: &Transfer) -> bool {
    (1_453..=8_192).contains(&transfer.total)
        && transfer.offset > 0
        && transfer.offset % 1_452 == 0
        && transfer.offset < transfer.total
        && transfer.deadline.is_some() == transfer.stored
        && (transfer.stored || transfer.retries == 0)
}

fn download_is_sound(transfer: &Transfer) -> bool {
    (1..=8_192).contains(&transfer.total)
        && transfer.offset <= transfer.total.max(1_480)
        && transfer.deadline.is_some()
}
