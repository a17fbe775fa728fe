//! Clients and lent tables for scripts.

use super::command::Command;
use super::image::INDEXES;
use crate::frame::basic::MacAddress;
use crate::od::image::Entry;
use crate::replay::record::{Record, State, Transfer};
use crate::replay::state::PIECE;
use crate::replay::table::{RECORDS, Table};
use crate::rng::Rng;
use crate::sdo::server::SdoClientInfo;
use crate::types::{IpAddress, NodeId};

/// `count` clients, no two the same, many alike but for one byte.
pub fn clients(rng: &mut Rng, count: usize) -> Vec<SdoClientInfo> {
    let mac = rng.bytes(6);
    let ip = rng.bytes(4);
    let mut made = Vec::new();
    while made.len() < count {
        let (place, change) = (rng.within(0, 5), rng.pick(&[0, 0, 1, 0x80, 0xFF]));
        let client = if rng.one_in(2) {
            let mut mac: [u8; 6] = core::array::from_fn(|i| mac[i]);
            mac[place] ^= change;
            if rng.one_in(8) {
                mac = [0; 6];
            }
            SdoClientInfo::Asnd {
                source_node_id: NodeId(rng.pick(&[0, 1, 2, 240, 255])),
                source_mac: MacAddress(mac),
            }
        } else {
            let mut ip: [u8; 4] = core::array::from_fn(|i| ip[i]);
            ip[place % 4] ^= change;
            SdoClientInfo::Udp {
                source_ip: IpAddress(ip),
                source_port: rng.pick(&[0, 1, 255, 256, 3_819, 65_535]),
            }
        };
        if !made.contains(&client) {
            made.push(client);
        }
    }
    made
}

fn deadline(rng: &mut Rng, now: u64) -> u64 {
    let wide = rng.u64();
    let near = now.saturating_add(rng.within(0, 2_000_000) as u64);
    rng.weighted(&[
        (6, near),
        (3, now),
        (1, now.saturating_sub(1)),
        (1, now.saturating_add(1)),
        (1, 0),
        (1, (1 << 63) - 1),
        (1, u64::MAX),
        (1, wide),
    ])
}

fn named(rng: &mut Rng) -> (u16, u8) {
    (rng.pick(&INDEXES), rng.pick(&[0, 0, 1, 2]))
}

pub fn upload(rng: &mut Rng, now: u64) -> Transfer {
    let total = rng.pick(&[
        1_453, 1_454, 2_904, 2_905, 4_356, 4_357, 7_260, 7_261, 8_191, 8_192,
    ]);
    let last = (total - 1) / PIECE;
    let (index, sub_index) = named(rng);
    let stored = !rng.one_in(4);
    let time = deadline(rng, now);
    let retries = rng.pick(&[0, 0, 1, 2, u32::MAX]);
    Transfer {
        transaction: rng.pick(&[0, 1, 5, 7, 255]),
        total: total as u32,
        offset: (rng.within(1, last) * PIECE) as u32,
        index,
        sub_index,
        deadline: stored.then_some(time),
        retries: if stored { retries } else { 0 },
        stored,
    }
}

/// Which entry a download is for, and its total: mostly one that the image
/// has and a total that fits, so that it can be written.
fn target(rng: &mut Rng, entries: &[Entry]) -> ((u16, u8), u32) {
    let any = rng.within(1, 8_192) as u32;
    let total = rng.pick(&[
        1, 2, 4, 10, 100, 1_452, 1_479, 1_480, 1_481, 8_191, 8_192, any,
    ]);
    if entries.is_empty() || rng.one_in(5) {
        return (named(rng), total);
    }
    let entry = rng.pick(entries);
    let capacity = entry.capacity as u32;
    let near = rng.pick(&[capacity - 1, capacity + 1, capacity / 2]);
    let near = near.clamp(1, 8_192);
    let total = rng.weighted(&[(6, capacity), (5, near), (1, total)]);
    match rng.one_in(8) {
        true => ((entry.index, rng.u8()), total),
        false => (entry.key(), total),
    }
}

/// `entries` are the image's.
pub fn download(rng: &mut Rng, now: u64, entries: &[Entry]) -> Transfer {
    let ((index, sub_index), total) = target(rng, entries);
    let some = rng.within(0, total as usize) as u32;
    let near = total.saturating_sub(rng.within(0, 20) as u32);
    Transfer {
        transaction: rng.pick(&[0, 1, 5, 7, 255]),
        total,
        offset: rng.pick(&[
            0,
            1.min(total),
            total - 1,
            total,
            total.max(1_480),
            some,
            near,
            near,
        ]),
        index,
        sub_index,
        deadline: Some(deadline(rng, now)),
        retries: rng.weighted(&[(6, 0), (1, 1), (1, u32::MAX)]),
        stored: rng.one_in(8),
    }
}

/// The download that this Initiate begins.
pub fn download_of(initiate: &Command, entry: &Entry, now: u64) -> Transfer {
    Transfer {
        transaction: initiate.transaction,
        total: initiate.total,
        offset: initiate.payload.len() as u32 - 4,
        index: entry.index,
        sub_index: entry.sub_index,
        deadline: Some(now.saturating_add(1_000_000)),
        retries: 0,
        stored: false,
    }
}

/// A sound table of some of these clients.
pub fn sound(rng: &mut Rng, now: u64, clients: &[SdoClientInfo], entries: &[Entry]) -> Table {
    let mut chosen = clients.to_vec();
    rng.shuffle(&mut chosen);
    let most = chosen.len().min(RECORDS);
    let count = match rng.one_in(4) {
        true => most,
        false => rng.within(0, most),
    };
    chosen.truncate(count);
    chosen.sort();
    let mut numbers: [u8; RECORDS] = core::array::from_fn(|n| n as u8);
    rng.shuffle(&mut numbers);
    let mut table = numbers.map(Record::unused);
    for (record, client) in table.iter_mut().zip(chosen) {
        record.used = true;
        record.client = client;
        record.send = number(rng);
        record.receive = number(rng);
        record.state = match rng.within(0, 6) {
            0 => State::Closed,
            1 => State::Opening,
            2 => State::Established,
            3 | 4 => State::Upload(upload(rng, now)),
            _ => State::Download(download(rng, now, entries)),
        };
    }
    table
}

/// A sequence number.
pub fn number(rng: &mut Rng) -> u8 {
    let any = rng.within(0, 63) as u8;
    rng.pick(&[0, 1, 62, 63, any, any])
}

/// The table with one thing wrong. A few come out sound all the same.
pub fn spoil(rng: &mut Rng, table: &mut Table) {
    let n = rng.within(0, RECORDS - 1);
    let other = rng.within(0, RECORDS - 1);
    match rng.within(0, 9) {
        0 => table.swap(n, other),
        1 => table[n].area = rng.pick(&[8, 9, 255, table[other].area]),
        2 => table[n].send = rng.pick(&[64, 65, 255]),
        3 => table[n].receive = rng.pick(&[64, 65, 255]),
        4 => table[n].used = !table[n].used,
        5 => table[n].client = table[other].client,
        6 => {
            let unused = table.iter_mut().filter(|record| !record.used);
            if let Some(record) = unused.last() {
                match rng.within(0, 3) {
                    0 => record.send = 1,
                    1 => record.receive = 62,
                    2 => record.state = rng.pick(&[State::Opening, State::Established]),
                    _ => record.client = clients(rng, 1)[0],
                }
            }
        }
        _ => {
            let first = rng.within(0, RECORDS - 1);
            for place in 0..RECORDS {
                match &mut table[(first + place) % RECORDS].state {
                    State::Upload(transfer) => return spoil_upload(rng, transfer),
                    State::Download(transfer) => return spoil_download(rng, transfer),
                    _ => {}
                }
            }
        }
    }
}

fn spoil_upload(rng: &mut Rng, transfer: &mut Transfer) {
    match rng.within(0, 5) {
        0 => transfer.total = rng.pick(&[0, 1_452, 8_193, u32::MAX, transfer.offset]),
        1 => {
            let near = transfer.offset.wrapping_add(rng.pick(&[1, u32::MAX]));
            transfer.offset = rng.pick(&[0, near, 1_451, 8_192, 8_712, u32::MAX]);
        }
        2 => transfer.deadline = transfer.deadline.xor(Some(5)),
        3 => transfer.stored = !transfer.stored,
        4 => {
            transfer.deadline = None;
            transfer.stored = false;
            transfer.retries = rng.pick(&[0, 1, 2]);
        }
        _ => transfer.total = rng.pick(&[8_193, 8_712, 10_000]),
    }
}

fn spoil_download(rng: &mut Rng, transfer: &mut Transfer) {
    match rng.within(0, 2) {
        0 => transfer.total = rng.pick(&[0, 8_193, u32::MAX]),
        1 => transfer.offset = transfer.total.max(1_480) + rng.pick(&[1, 2, 100_000]),
        _ => transfer.deadline = None,
    }
}
