//! Clocks and clients: those at the limits, and those of other items.

use super::one_of;
use formats::client::Client;
use formats::random::Random;
use formats::record::read_table;
use formats::script::Item;

/// The clocks and clients of a script.
pub struct Known {
    clocks: Vec<u64>,
    clients: Vec<Client>,
}

const LAST_CLOCK: u64 = (1 << 63) - 1;

/// The timeout without one in the image, in microseconds.
const TIMEOUT: u64 = 15_000_000;

impl Known {
    pub fn of(items: &[Item]) -> Known {
        let mut known = Known {
            clocks: vec![0, 1, LAST_CLOCK, LAST_CLOCK + 1, u64::MAX],
            clients: Vec::new(),
        };
        for item in items {
            match item {
                Item::Request { client, clock, .. } => {
                    known.clients.push(*client);
                    known.clocks.push(*clock);
                }
                Item::Tick { clock } => known.clocks.push(*clock),
                Item::Table(bytes) => {
                    let records = read_table(&bytes[..]).unwrap_or_default();
                    let used = records.iter().filter(|record| record.used);
                    known.clients.extend(used.map(|record| record.client));
                    known
                        .clocks
                        .extend(records.iter().filter_map(|record| record.deadline));
                }
                _ => {}
            }
        }
        known
    }
}

pub fn clock(clock: u64, known: &Known, random: &mut Random) -> u64 {
    let base = match random.below(3) {
        0 => clock,
        _ => one_of(&known.clocks, random),
    };
    match random.below(6) {
        0 => base.wrapping_add(1),
        1 => base.wrapping_sub(1),
        2 => base.wrapping_add(TIMEOUT),
        3 => base.wrapping_add(random.below(2 * TIMEOUT)),
        _ => base,
    }
}

pub fn client(client: Client, known: &Known, random: &mut Random) -> Client {
    if random.below(3) > 0 && !known.clients.is_empty() {
        return one_of(&known.clients, random);
    }
    let mut bytes = client.to_bytes();
    let at = random.below(8) as usize;
    bytes[at] = if at == 0 { 1 - bytes[0] } else { random.byte() };
    Client::from_bytes(bytes).unwrap_or(client)
}
