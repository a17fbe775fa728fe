//! Images for scripts: sound ones, and ones with one thing wrong.

use crate::od::image::{
    Content, MAX_CAPACITY, MAX_IMAGE, READ_ONLY, VARIABLE, build, entries, find,
};
use crate::replay::state::PIECE;
use crate::rng::Rng;

pub const TIMEOUT: u16 = 0x1300;
pub const RETRIES: u16 = 0x1302;

/// The objects that images have and commands name.
pub const INDEXES: [u16; 8] = [
    0x1000, TIMEOUT, 0x1301, RETRIES, 0x2000, 0x2001, 0x2002, 0x6FFF,
];

/// Around the lengths at which answers change.
const LONG: [usize; 16] = [
    1_451, 1_452, 1_453, 1_484, 2_903, 2_904, 2_905, 4_356, 4_357, 5_808, 5_809, 7_000, 7_260,
    7_261, 8_191, 8_192,
];
const SHORT: [usize; 8] = [0, 1, 2, 3, 4, 5, 8, 100];

/// An entry of 1300 or 1302: mostly one that counts.
fn setting(rng: &mut Rng, index: u16) -> Content {
    let flags = rng.weighted(&[(12, 0), (3, READ_ONLY), (2, VARIABLE), (1, 3)]);
    let capacity = rng.weighted(&[(12, 4), (1, 2), (1, 3), (1, 5), (1, 8)]);
    let value: u64 = match index {
        TIMEOUT => rng.pick(&[0, 1, 7, 100, 1_000, 30_000, u32::MAX as u64]),
        _ => rng.pick(&[0, 0, 1, 2, 3, 5, u32::MAX as u64]),
    };
    let mut length = capacity;
    if flags & VARIABLE != 0 && rng.one_in(3) {
        length = rng.within(0, capacity);
    }
    Content {
        index,
        sub_index: 0,
        flags,
        capacity,
        value: value.to_le_bytes()[..length].to_vec(),
    }
}

fn entry(rng: &mut Rng, (index, sub_index): (u16, u8), long: bool) -> Content {
    let fixed = if long { 2 } else { 4 };
    let flags = rng.weighted(&[(fixed, 0), (4, VARIABLE), (1, READ_ONLY), (1, 3)]);
    let length = match long {
        true => rng.pick(&LONG),
        false => rng.pick(&SHORT),
    };
    let capacity = match flags & VARIABLE {
        0 => length,
        _ => length + rng.pick(&[0, 0, 1, 50, 1_500]),
    };
    let capacity = capacity.clamp(1, MAX_CAPACITY);
    let length = if flags & VARIABLE == 0 {
        capacity
    } else {
        length
    };
    Content {
        index,
        sub_index,
        flags,
        capacity,
        value: rng.bytes(length),
    }
}

/// The entries of a sound image, with about `long` long values.
fn contents(rng: &mut Rng, long: usize) -> Vec<Content> {
    let mut keys = Vec::new();
    for index in [TIMEOUT, RETRIES] {
        if !rng.one_in(3) {
            keys.push((index, 0));
        }
    }
    for _ in 0..rng.within(0, 6) + long {
        keys.push((rng.pick(&INDEXES), rng.pick(&[0, 0, 1, 1, 2, 254, 255])));
    }
    keys.sort();
    keys.dedup();
    let mut left = keys.len();
    let mut missing = long;
    let mut made = Vec::new();
    for key in keys {
        if matches!(key, (TIMEOUT | RETRIES, 0)) {
            made.push(setting(rng, key.0));
        } else {
            let is_long = missing > 0 && rng.within(1, left) <= missing + 1;
            missing -= is_long as usize;
            made.push(entry(rng, key, is_long));
        }
        left -= 1;
    }
    made
}

/// A sound image of any usual size.
pub fn sound(rng: &mut Rng) -> Vec<u8> {
    let long = rng.weighted(&[(4, 0), (6, 1), (3, 2), (1, 4)]);
    build(&contents(rng, long))
}

/// A sound image with a value of several pieces.
pub fn sound_with_long(rng: &mut Rng) -> Vec<u8> {
    loop {
        let long = rng.pick(&[1, 2, 3]);
        let image = build(&contents(rng, long));
        if entries(&image).iter().any(|entry| entry.length > PIECE) {
            return image;
        }
    }
}

/// The image with every byte of this entry's value another one, as the
/// device itself might have changed it.
pub fn touched(image: &[u8], key: (u16, u8)) -> Option<Vec<u8>> {
    let entry = find(image, key.0, key.1)?;
    let value: Vec<u8> = entry.value(image).iter().map(|byte| !byte).collect();
    let mut image = image.to_vec();
    entry.put(&mut image, &value);
    Some(image)
}

/// A sound image at a border: no entry, very many, or the greatest size.
pub fn sound_at_a_border(rng: &mut Rng) -> Vec<u8> {
    match rng.within(0, 3) {
        0 => build(&[]),
        1 => build(&row(rng, 5_041, 1)),
        2 => build(&full(rng, MAX_IMAGE)),
        _ => build(&row(rng, 200, 30)),
    }
}

/// Entries 2000/0, 2000/1, … of one capacity.
fn row(rng: &mut Rng, count: u32, capacity: usize) -> Vec<Content> {
    (0..count)
        .map(|n| Content {
            index: 0x2000 + (n >> 8) as u16,
            sub_index: n as u8,
            flags: VARIABLE,
            capacity,
            value: rng.bytes(capacity),
        })
        .collect()
}

/// Eight entries that make an image of `size` bytes.
fn full(rng: &mut Rng, size: usize) -> Vec<Content> {
    let mut entries = row(rng, 8, MAX_CAPACITY);
    let over = 2 + 12 * 8 + 8 * MAX_CAPACITY - size;
    entries[3].capacity -= over;
    entries[3].value.truncate(MAX_CAPACITY - over);
    entries
}

/// An image with one thing wrong. A few come out sound all the same.
pub fn spoilt(rng: &mut Rng) -> Vec<u8> {
    let mut entries = contents(rng, 1);
    let n = rng.within(0, entries.len() - 1);
    // Where the entry stands in the image.
    let at = 2 + 12 * n;
    // Those that make a long image are rare.
    let way = match rng.within(0, 13) {
        way @ 4..=6 if !rng.one_in(5) => way + 3,
        way => way,
    };
    match way {
        0 => entries.swap(0, n),
        1 => entries.insert(n, entries[n].clone()),
        2 => entries[n].flags |= rng.pick(&[4, 8, 0x80]),
        3 => {
            entries[n].capacity = 0;
            entries[n].value.clear();
        }
        4 => {
            entries[n].capacity = MAX_CAPACITY + 1;
            entries[n].value = rng.bytes(MAX_CAPACITY + 1);
        }
        5 => entries = full(rng, MAX_IMAGE + 1),
        6 => entries = full(rng, 2 + 12 * 8 + 8 * MAX_CAPACITY),
        way => {
            let mut image = build(&entries);
            match way {
                7 => image[at + 4] = image[at + 4].wrapping_add(rng.pick(&[1, 255])),
                8 => {
                    let length = entries[n].value.len() as u16;
                    let length = length.wrapping_add(rng.pick(&[1, 65_535, 9_000]));
                    image[at + 10..at + 12].copy_from_slice(&length.to_le_bytes());
                }
                9 => image.extend(rng.bytes(1)),
                10 => {
                    image.pop();
                }
                11 => image[0] = image[0].wrapping_add(rng.pick(&[1, 255])),
                12 => {
                    let place = rng.within(0, 1 + 12 * entries.len());
                    image[place] ^= 1 << rng.within(0, 7);
                }
                _ => {
                    let length = rng.pick(&[0, 1, 2, 13, 14, 40]);
                    image = rng.bytes(length);
                }
            }
            return image;
        }
    }
    build(&entries)
}
