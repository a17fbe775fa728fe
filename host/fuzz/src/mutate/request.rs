//! A request's bytes: sequence header, command header, payload, length.

use super::one_of;
use formats::random::Random;

/// Every id of the Rust's table.
const IDS: [u8; 13] = [
    0x00, 0x01, 0x02, 0x03, 0x04, 0x05, 0x06, 0x20, 0x21, 0x31, 0x32, 0x70, 0x80,
];

const SIZES: [u16; 9] = [0, 1, 3, 4, 5, 1_452, 1_488, 1_492, u16::MAX];
const TOTALS: [u32; 9] = [0, 1, 10, 1_452, 1_453, 8_192, 8_193, 65_536, u32::MAX];
const LENGTHS: [usize; 14] = [
    0, 1, 3, 4, 5, 11, 12, 15, 16, 20, 1_499, 1_500, 1_501, 1_600,
];

/// Where the command's fields stand in a request.
const RESERVED: usize = 4;
const TRANSACTION: usize = 5;
const FLAGS: usize = 6;
const ID: usize = 7;
const SIZE: usize = 8;
const PAYLOAD: usize = 12;

pub fn change(bytes: &mut Vec<u8>, random: &mut Random) {
    match random.below(12) {
        0 | 1 => number(bytes, random),
        2 | 3 => marks(bytes, random),
        4 => set(bytes, TRANSACTION, random.byte() % 4),
        5 => flags(bytes, random),
        6 => set(bytes, ID, one_of(&IDS, random)),
        7 => size(bytes, random),
        8 => total(bytes, random),
        9 => payload(bytes, random),
        10 => bytes.resize(one_of(&LENGTHS, random), random.byte()),
        _ => {
            let at = random.below(bytes.len() as u64 + 1) as usize;
            set(bytes, at, random.byte());
        }
    }
}

fn set(bytes: &mut [u8], at: usize, value: u8) {
    if let Some(byte) = bytes.get_mut(at) {
        *byte = value;
    }
}

/// The receive or the send number: next, last, before, any.
fn number(bytes: &mut [u8], random: &mut Random) {
    let at = random.below(2) as usize;
    let Some(byte) = bytes.get_mut(at) else {
        return;
    };
    let step = match random.below(5) {
        0 | 1 => 1,
        2 => 63,
        3 => 32,
        _ => random.below(64) as u8,
    };
    *byte = byte.wrapping_add(step << 2);
}

fn marks(bytes: &mut [u8], random: &mut Random) {
    let at = random.below(2) as usize;
    if let Some(byte) = bytes.get_mut(at) {
        *byte = *byte & !3 | random.below(4) as u8;
    }
}

/// Response, aborted, segmentation or any bit; the reserved byte.
fn flags(bytes: &mut [u8], random: &mut Random) {
    let flip = match random.below(6) {
        0 => 0x10,
        1 => 0x20,
        2 => 0x40,
        3 => 0x80,
        4 => 1 << random.below(8),
        _ => return set(bytes, RESERVED, random.byte()),
    };
    if let Some(byte) = bytes.get_mut(FLAGS) {
        *byte ^= flip;
    }
}

/// The segment size: what is there, about that, or at a limit.
fn size(bytes: &mut [u8], random: &mut Random) {
    let there = bytes.len().saturating_sub(PAYLOAD) as u16;
    let value = match random.below(5) {
        0 => there,
        1 => there.wrapping_add(1),
        2 => there.wrapping_sub(1),
        3 => there.wrapping_sub(4),
        _ => one_of(&SIZES, random),
    };
    put(bytes, SIZE, &value.to_le_bytes());
}

/// The total size, where an Initiate has one.
fn total(bytes: &mut [u8], random: &mut Random) {
    let after = bytes.len().saturating_sub(PAYLOAD + 4) as u32;
    let value = match random.below(3) {
        0 => after.saturating_sub(4),
        _ => one_of(&TOTALS, random),
    };
    put(bytes, PAYLOAD, &value.to_le_bytes());
}

/// Payload bytes taken away or added, with the segment size or without; the
/// sub-index or the index.
fn payload(bytes: &mut Vec<u8>, random: &mut Random) {
    let count = random.below(6) as usize;
    match random.below(5) {
        0 => bytes.truncate(bytes.len().saturating_sub(count)),
        1 => bytes.extend((0..count).map(|_| random.byte())),
        2 => return set(bytes, PAYLOAD + 2, random.below(3) as u8),
        3 => {
            return put(
                bytes,
                PAYLOAD,
                &one_of(&[0x1300_u16, 0x1302, 0x2001], random).to_le_bytes(),
            )
        }
        _ => return set(bytes, PAYLOAD, random.byte()),
    }
    if random.below(2) == 0 {
        let there = bytes.len().saturating_sub(PAYLOAD) as u16;
        put(bytes, SIZE, &there.to_le_bytes());
    }
}

fn put(bytes: &mut [u8], at: usize, value: &[u8]) {
    if let Some(field) = bytes.get_mut(at..at + value.len()) {
        field.copy_from_slice(value);
    }
}
