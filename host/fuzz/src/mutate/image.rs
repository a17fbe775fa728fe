//! A dictionary image: its count, an entry's fields, its bodies, its length.

use super::one_of;
use formats::random::Random;

const COUNT: usize = 2;
const ENTRY: usize = 12;

/// An entry's fields: where they begin, and their bytes.
const FIELDS: [(usize, usize); 6] = [(0, 2), (2, 1), (3, 1), (4, 4), (8, 2), (10, 2)];

const VALUES: [u32; 10] = [0, 1, 3, 4, 0x1300, 0x1302, 1_452, 1_453, 8_192, 8_193];

pub fn change(image: &mut Vec<u8>, random: &mut Random) {
    match random.below(10) {
        0 => {
            image.pop();
        }
        1 => image.push(random.byte()),
        2 => {
            if let Some(byte) = image.first_mut() {
                *byte = byte.wrapping_add(one_of(&[1, 255], random));
            }
        }
        3 | 4 => {
            let at = random.below(image.len() as u64 + 1) as usize;
            if let Some(byte) = image.get_mut(at) {
                *byte = random.byte();
            }
        }
        _ => change_entry(image, random),
    }
}

fn change_entry(image: &mut [u8], random: &mut Random) {
    let [low, high, ..] = *image else {
        return;
    };
    let entries = u16::from_le_bytes([low, high]);
    let entry = random.below(u64::from(entries).max(1)) as usize;
    let (begin, size) = one_of(&FIELDS, random);
    let at = COUNT + ENTRY * entry + begin;
    let Some(field) = image.get_mut(at..at + size) else {
        return;
    };
    let old = field.iter().rev().fold(0, |n, &b| n << 8 | u32::from(b));
    let new = match random.below(4) {
        0 => old.wrapping_add(1),
        1 => old.wrapping_sub(1),
        2 => old ^ 1 << random.below(8),
        _ => one_of(&VALUES, random),
    };
    field.copy_from_slice(&new.to_le_bytes()[..size]);
}
