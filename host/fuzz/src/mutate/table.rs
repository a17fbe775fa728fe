//! A record of the table: its fields within the format's limits.

use super::numbers::{self, Known};
use super::one_of;
use formats::random::Random;
use formats::record::{RECORDS, RECORD_SIZE, TABLE_SIZE};

/// A record's numbers: where they begin, and their bytes.
const NUMBERS: [(usize, usize); 5] = [(14, 4), (18, 4), (22, 2), (26, 8), (34, 4)];

const VALUES: [u64; 14] = [
    0,
    1,
    2,
    10,
    1_452,
    1_453,
    1_480,
    1_481,
    2_904,
    5_808,
    7_260,
    8_192,
    8_193,
    0xFFFF_FFFF,
];

const DEADLINE: usize = 26;

/// Flags, and the kind of client.
const BITS: [usize; 4] = [0, 1, 25, 38];
const STATE: usize = 12;

pub fn change(table: &mut [u8; TABLE_SIZE], known: &Known, random: &mut Random) {
    let at = RECORD_SIZE * random.below(RECORDS as u64) as usize;
    if random.below(8) == 0 {
        return swap(table, at, random);
    }
    let record = &mut table[at..at + RECORD_SIZE];
    match random.below(8) {
        0 => record[one_of(&BITS, random)] ^= 1,
        1 => record[STATE] = random.below(5) as u8,
        2 => record[9] = random.below(9) as u8,
        3 => {
            let place = one_of(&[10, 11], random);
            record[place] = one_of(&[0, 1, 62, 63, 64, 255], random);
        }
        4 => record[one_of(&[2, 3, 8, 13, 24, 39], random)] = random.byte(),
        5 => {
            let deadline = numbers::clock(0, known, random);
            record[DEADLINE..][..8].copy_from_slice(&deadline.to_le_bytes());
        }
        _ => number(record, random),
    }
}

fn number(record: &mut [u8], random: &mut Random) {
    let (begin, size) = one_of(&NUMBERS, random);
    let value = one_of(&VALUES, random).to_le_bytes();
    record[begin..begin + size].copy_from_slice(&value[..size]);
}

/// Two records in each other's place.
fn swap(table: &mut [u8; TABLE_SIZE], at: usize, random: &mut Random) {
    let other = RECORD_SIZE * random.below(RECORDS as u64) as usize;
    for byte in 0..RECORD_SIZE {
        table.swap(at + byte, other + byte);
    }
}
