//! The area, 65,536 bytes in eight shares, and Adler-32.

use super::table::RECORDS;

pub const AREA: usize = 65_536;
pub const SHARE: usize = AREA / RECORDS;

const MODULUS: u64 = 65_521;

/// The two sums of some bytes, apart from what stands before them: of the
/// bytes, and of each times its distance from the end.
#[derive(Clone, Copy)]
struct Sums {
    plain: u64,
    weighted: u64,
    count: u64,
}

fn sums(bytes: &[u8]) -> Sums {
    let (mut plain, mut weighted) = (0u64, 0u64);
    // So many that no sum passes a u32.
    for block in bytes.chunks(4_096) {
        let (mut first, mut second) = (0u32, 0u32);
        for &byte in block {
            first += byte as u32;
            second += first;
        }
        weighted += plain * block.len() as u64 + second as u64;
        plain += first as u64;
    }
    Sums {
        plain: plain % MODULUS,
        weighted: weighted % MODULUS,
        count: bytes.len() as u64,
    }
}

fn combine(parts: impl IntoIterator<Item = Sums>) -> u32 {
    let (mut a, mut b) = (1, 0);
    for part in parts {
        b = (b + part.count * a + part.weighted) % MODULUS;
        a = (a + part.plain) % MODULUS;
    }
    (b << 16 | a) as u32
}

pub fn adler32(bytes: &[u8]) -> u32 {
    combine(bytes.chunks(SHARE).map(sums))
}

pub struct Area {
    bytes: Vec<u8>,
    /// Of each share.
    sums: [Sums; RECORDS],
}

impl Area {
    pub fn zeros() -> Self {
        Self::of(vec![0; AREA])
    }

    /// Byte i becomes (base + i × 7 + i / 256) mod 256.
    pub fn pattern(base: u8) -> Self {
        let byte = |i: usize| (base as usize + i * 7 + i / 256) as u8;
        Self::of((0..AREA).map(byte).collect())
    }

    fn of(bytes: Vec<u8>) -> Self {
        let sums = core::array::from_fn(|n| sums(&bytes[n * SHARE..][..SHARE]));
        Self { bytes, sums }
    }

    pub fn share(&self, number: u8) -> &[u8] {
        &self.bytes[number as usize * SHARE..][..SHARE]
    }

    /// Stores `data` in a share, from `offset` on.
    pub fn store(&mut self, number: u8, offset: usize, data: &[u8]) {
        let share = &mut self.bytes[number as usize * SHARE..][..SHARE];
        share[offset..offset + data.len()].copy_from_slice(data);
        self.sums[number as usize] = sums(share);
    }

    pub fn adler32(&self) -> u32 {
        combine(self.sums)
    }
}
