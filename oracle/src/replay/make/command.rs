//! Commands for scripts: of every kind, for what the image has and has not.

use super::image::INDEXES;
use crate::od::image::{self, Entry};
use crate::replay::record::Transfer;
use crate::replay::state::PIECE;
use crate::rng::Rng;

pub const NIL: u8 = 0x00;
pub const WRITE: u8 = 0x01;
pub const READ: u8 = 0x02;
pub const ABORT: u8 = 0x40;
pub const MAX_SEGMENT_SIZE: u8 = 0x70;

/// The known ids outside the domain of comparison.
const OTHERS: [u8; 8] = [0x03, 0x04, 0x05, 0x06, 0x20, 0x21, 0x31, 0x32];

pub const EXPEDITED: u8 = 0;
pub const INITIATE: u8 = 1;
pub const SEGMENT: u8 = 2;
pub const COMPLETE: u8 = 3;

pub const RESPONSE: u8 = 0x10;
pub const ABORTED: u8 = 0x20;

/// A request's longest payload, and an Initiate's.
const MOST: usize = 1_488;
const MOST_INITIATE: usize = 1_484;

#[derive(Clone)]
pub struct Command {
    pub first: u8,
    pub transaction: u8,
    pub bits: u8,
    pub segmentation: u8,
    pub id: u8,
    pub total: u32,
    pub payload: Vec<u8>,
}

impl Command {
    pub fn new(transaction: u8, segmentation: u8, id: u8, payload: Vec<u8>) -> Self {
        Self {
            first: 0,
            transaction,
            bits: 0,
            segmentation,
            id,
            total: 0,
            payload,
        }
    }

    pub fn bytes(&self) -> Vec<u8> {
        let flags = self.segmentation << 6 | self.bits;
        let mut bytes = vec![self.first, self.transaction, flags, self.id];
        bytes.extend((self.payload.len() as u16).to_le_bytes());
        bytes.extend([0, 0]);
        if self.segmentation == INITIATE {
            bytes.extend(self.total.to_le_bytes());
        }
        bytes.extend(&self.payload);
        bytes
    }
}

/// Index, sub and the ignored byte.
pub fn name(index: u16, sub_index: u8, ignored: u8) -> Vec<u8> {
    let [low, high] = index.to_le_bytes();
    vec![low, high, sub_index, ignored]
}

pub fn read(transaction: u8, index: u16, sub_index: u8) -> Command {
    Command::new(transaction, EXPEDITED, READ, name(index, sub_index, 0))
}

pub fn any_transaction(rng: &mut Rng) -> u8 {
    let any = rng.u8();
    rng.pick(&[0, 1, 5, 7, 255, any])
}

/// A key that commands name: mostly one that the image has, sometimes a
/// missing sub-index or object.
fn key(rng: &mut Rng, entries: &[Entry]) -> (u16, u8, Option<Entry>) {
    let any = (rng.pick(&INDEXES), rng.pick(&[0, 1, 2, 255]));
    let (index, sub_index) = match rng.within(0, 19) {
        0 => any,
        1 => (rng.u16(), rng.u8()),
        2 if !entries.is_empty() => (rng.pick(entries).index, rng.u8()),
        _ if !entries.is_empty() => rng.pick(entries).key(),
        _ => any,
    };
    let found = entries.iter().find(|e| e.key() == (index, sub_index));
    (index, sub_index, found.copied())
}

/// Any command of this transaction; `strange` allows those outside the
/// domain of comparison.
pub fn any(rng: &mut Rng, transaction: u8, sound_image: Option<&[u8]>, strange: bool) -> Command {
    let entries = sound_image.map(image::entries).unwrap_or_default();
    if strange && rng.one_in(3) {
        let mut other = other_id(rng, &entries);
        other.transaction = transaction;
        return other;
    }
    match rng.within(0, 19) {
        0..=9 => any_read(rng, transaction, &entries),
        10..=15 => any_write(rng, transaction, &entries, strange),
        16 | 17 => {
            let length = rng.pick(&[0, 1, 2, 2, 3, 4]);
            let segmentation = rng.weighted(&[(5, 0), (1, 1), (1, 2), (1, 3)]);
            Command::new(
                transaction,
                segmentation,
                MAX_SEGMENT_SIZE,
                rng.bytes(length),
            )
        }
        18 => {
            let length = rng.pick(&[0, 0, 4]);
            let segmentation = rng.weighted(&[(4, 0), (1, 1), (1, 2), (1, 3)]);
            Command::new(transaction, segmentation, NIL, rng.bytes(length))
        }
        _ => {
            let segmentation = rng.weighted(&[(3, 0), (1, 1), (1, 2), (1, 3)]);
            Command::new(transaction, segmentation, ABORT, rng.bytes(4))
        }
    }
}

/// A known id outside the domain of comparison.
pub fn other_id(rng: &mut Rng, entries: &[Entry]) -> Command {
    let (index, sub_index, _) = key(rng, entries);
    let payload = name(index, sub_index, 0);
    let (segmentation, id) = (rng.within(0, 3) as u8, rng.pick(&OTHERS));
    Command::new(any_transaction(rng), segmentation, id, payload)
}

fn any_read(rng: &mut Rng, transaction: u8, entries: &[Entry]) -> Command {
    let long: Vec<Entry> = entries
        .iter()
        .filter(|e| e.length >= PIECE)
        .copied()
        .collect();
    let (mut index, mut sub_index, _) = key(rng, entries);
    if !long.is_empty() && !rng.one_in(3) {
        (index, sub_index) = rng.pick(&long).key();
    }
    let mut payload = name(index, sub_index, rng.pick(&[0, 0, 9]));
    match rng.within(0, 19) {
        0 => payload.truncate(rng.within(0, 3)),
        1 => payload.extend(rng.bytes(3)),
        _ => {}
    }
    let segmentation = rng.weighted(&[(9, 0), (1, 1), (1, 2), (1, 3)]);
    let mut command = Command::new(transaction, segmentation, READ, payload);
    command.total = rng.pick(&[0, 4, 9_000]);
    command
}

fn any_write(rng: &mut Rng, transaction: u8, entries: &[Entry], strange: bool) -> Command {
    let (index, sub_index, entry) = key(rng, entries);
    let segmentation = rng.weighted(&[(6, 0), (3, 1), (1, 2), (1, 3)]);
    let most = match segmentation {
        EXPEDITED => MOST - 4,
        _ => MOST_INITIATE - 4,
    };
    let capacity = entry.map_or(4, |entry| entry.capacity);
    let some = rng.within(0, capacity);
    let length = rng.pick(&[capacity, capacity, capacity - 1, capacity + 1, some, 0]);
    let length = if rng.one_in(12) {
        most
    } else {
        length.min(most)
    };
    let mut payload = name(index, sub_index, rng.pick(&[0, 0, 9]));
    payload.extend(rng.bytes(length));
    if rng.one_in(15) {
        payload.truncate(rng.within(0, 4));
    }
    let mut command = Command::new(transaction, segmentation, WRITE, payload);
    let length = length as u32;
    command.total = rng.pick(&[0, 1, length, length + 1, capacity as u32, 8_191, 8_192]);
    if strange {
        command.total = rng.pick(&[8_193, 8_192, 65_536, u32::MAX, command.total]);
    }
    command
}

/// What advances an upload, when it is no empty frame.
pub fn acknowledge(rng: &mut Rng, transaction: u8) -> Command {
    let length = rng.pick(&[0, 0, 0, 4]);
    let segmentation = rng.weighted(&[(5, 0), (1, 1), (1, 2), (1, 3)]);
    if rng.one_in(2) {
        return Command::new(transaction, segmentation, NIL, rng.bytes(length));
    }
    let id = rng.pick(&[NIL, READ, READ, WRITE, ABORT, MAX_SEGMENT_SIZE, 0x03, 0x32]);
    let mut command = Command::new(transaction, segmentation, id, rng.bytes(length));
    command.bits = RESPONSE;
    command
}

/// A part for a download: one that fits, or one too much or too little.
pub fn part(rng: &mut Rng, transfer: &Transfer) -> Command {
    let left = transfer.total.saturating_sub(transfer.offset) as usize;
    let some = rng.within(0, left);
    let over = rng.pick(&[left + 1, left.saturating_sub(1), 0, 1]);
    let length = rng.weighted(&[(6, left), (3, some), (3, over)]).min(MOST);
    let segmentation = match length == left {
        true => rng.weighted(&[(4, COMPLETE), (1, SEGMENT)]),
        false => rng.weighted(&[(1, COMPLETE), (2, SEGMENT)]),
    };
    Command::new(transfer.transaction, segmentation, WRITE, rng.bytes(length))
}

/// Whether an Expedited write can change the entry.
pub fn takes_expedited(entry: &Entry) -> bool {
    !entry.is_read_only() && (entry.is_variable() || entry.capacity <= MOST - 4)
}

/// An Expedited write that the entry takes, if one frame can hold it.
pub fn fitting_write(rng: &mut Rng, entry: &Entry) -> Command {
    let most = entry.capacity.min(MOST - 4);
    let some = rng.within(0, most);
    let length = match entry.is_variable() {
        true => rng.pick(&[most, most, some, 0]),
        false => most,
    };
    let mut payload = name(entry.index, entry.sub_index, 0);
    payload.extend(rng.bytes(length));
    Command::new(any_transaction(rng), EXPEDITED, WRITE, payload)
}

/// What an upload aborts: a new command of its transaction, or another one's.
pub fn against_upload(rng: &mut Rng, transaction: u8) -> Command {
    let segmentation = rng.within(0, 3) as u8;
    let id = rng.pick(&[READ, WRITE, ABORT, MAX_SEGMENT_SIZE, 0x04, 0x32]);
    let mut command = Command::new(transaction, segmentation, id, name(0x2000, 0, 0));
    if rng.one_in(2) {
        command.transaction = transaction.wrapping_add(rng.pick(&[1, 255, 16]));
        command.bits = rng.pick(&[0, RESPONSE]);
        command.id = rng.pick(&[NIL, NIL, id]);
    }
    command
}

/// A download's Initiate with a total that the entry takes, and the first
/// part of the data.
pub fn initiate(rng: &mut Rng, entry: &Entry) -> Command {
    let total = match entry.is_variable() {
        true => rng.within(1, entry.capacity),
        false => entry.capacity,
    };
    let length = rng.within(0, total.min(MOST_INITIATE - 4));
    let mut payload = name(entry.index, entry.sub_index, 0);
    payload.extend(rng.bytes(length));
    let mut command = Command::new(any_transaction(rng), INITIATE, WRITE, payload);
    command.total = total as u32;
    command
}

/// A part that fits, `last` if it can be.
pub fn good_part(rng: &mut Rng, transfer: &Transfer, last: bool) -> Command {
    let left = (transfer.total - transfer.offset) as usize;
    let (segmentation, length) = match last && left <= MOST {
        true => (COMPLETE, left),
        false if last => (SEGMENT, MOST),
        false => (SEGMENT, rng.within(0, left.min(MOST))),
    };
    Command::new(transfer.transaction, segmentation, WRITE, rng.bytes(length))
}

/// A command that is aborted where no transfer runs: one way as often as
/// another, as far as the image has entries for it.
pub fn aborted(rng: &mut Rng, entries: &[Entry]) -> Vec<u8> {
    let transaction = any_transaction(rng);
    let any = match entries.is_empty() {
        true => (0x2000, 0),
        false => rng.pick(entries).key(),
    };
    let segmentation = rng.within(0, 3) as u8;
    let short = rng.bytes(3)[..rng.within(0, 3)].to_vec();
    let command = match rng.within(0, 14) {
        0 => Command::new(transaction, segmentation, READ, short),
        1 => Command::new(transaction, EXPEDITED, WRITE, short),
        2 => Command::new(transaction, INITIATE, WRITE, short),
        3 => Command::new(transaction, segmentation, ABORT, short),
        4 => Command::new(transaction, rng.pick(&[SEGMENT, COMPLETE]), WRITE, short),
        5 | 10 => {
            let mut command = Command::new(transaction, INITIATE, WRITE, name(any.0, any.1, 0));
            command.total = rng.pick(&[8_193, 8_193, 65_536, u32::MAX]);
            command
        }
        6 => Command::new(transaction, INITIATE, WRITE, name(any.0, any.1, 0)),
        7 | 8 => missing(rng, transaction, any),
        9 => {
            let mut bytes = read(transaction, any.0, any.1).bytes();
            bytes[0] = rng.u8();
            spoil(rng, &mut bytes);
            return bytes;
        }
        _ => misfit(rng, transaction, entries),
    };
    command.bytes()
}

/// A read or an Expedited write of what the image has not.
fn missing(rng: &mut Rng, transaction: u8, (index, sub_index): (u16, u8)) -> Command {
    let (index, sub_index) = match rng.one_in(2) {
        true => (rng.pick(&[0x0FFF, 0x1F00, 0xFFFF]), sub_index),
        false => (index, rng.pick(&[3, 77, 253])),
    };
    let mut command = read(transaction, index, sub_index);
    if rng.one_in(2) {
        command.id = WRITE;
        command.payload.extend(rng.bytes(4));
    }
    command
}

/// An Expedited write that an entry does not take: too long, too short or
/// read-only.
fn misfit(rng: &mut Rng, transaction: u8, entries: &[Entry]) -> Command {
    let kind = rng.within(0, 2);
    let fits = |entry: &&Entry| match kind {
        0 => entry.is_read_only() && entry.capacity <= MOST - 4,
        1 => !entry.is_variable(),
        _ => entry.capacity < MOST - 4,
    };
    let suited: Vec<&Entry> = entries.iter().filter(fits).collect();
    if suited.is_empty() {
        return missing(rng, transaction, (0x2000, 0));
    }
    let entry = rng.pick(&suited);
    let length = match kind {
        0 => entry.capacity,
        1 => rng.within(0, (entry.capacity - 1).min(MOST - 4)),
        _ => entry.capacity + rng.pick(&[1, 1, MOST - 4 - entry.capacity]),
    };
    let mut payload = name(entry.index, entry.sub_index, 0);
    payload.extend(rng.bytes(length.min(MOST - 4)));
    Command::new(transaction, EXPEDITED, WRITE, payload)
}

/// Spoils the bytes of a command so that most cannot be decoded.
pub fn spoil(rng: &mut Rng, bytes: &mut Vec<u8>) {
    if rng.one_in(2) {
        bytes[0] = rng.u8();
    }
    match rng.within(0, 4) {
        0 => bytes.truncate(rng.within(1, bytes.len())),
        1 => bytes[3] = rng.u8(),
        2 => {
            let size = u16::from_le_bytes([bytes[4], bytes[5]]);
            let size = size.wrapping_add(rng.pick(&[1, 65_535, 300]));
            bytes[4..6].copy_from_slice(&size.to_le_bytes());
        }
        3 => bytes[2] ^= rng.pick(&[0x40, 0x80, 0x0F]),
        _ => bytes.extend(rng.bytes(3)),
    }
    if bytes.len() >= 8 && rng.one_in(3) {
        bytes[6] = rng.u8();
        bytes[7] = rng.u8();
    }
}
