//! The proved server through its C interface: the table is 320 bytes, which
//! each call tests; a request decodes its client's record and stores it again.

use crate::cases::{Call, Case, CLOCK};
use crate::contestants::Prepared;
use formats::client::Client;
use formats::record::{empty_table, TABLE_SIZE};
use sdo::raw::{self, Lent};
use sdo::{ANSWER_SIZE, AREA_SIZE};
use std::hint::black_box;
use std::net::Ipv4Addr;

pub struct Archive {
    tables: Vec<[u8; TABLE_SIZE]>,
    area: Vec<u8>,
    image: Vec<u8>,
    answer: Vec<u8>,
    calls: Vec<(u64, Call)>,
}

impl Archive {
    pub fn new(case: &Case, image: &[u8], copies: usize) -> Archive {
        let mut archive = Archive {
            tables: vec![empty_table(); copies],
            area: vec![0; AREA_SIZE],
            image: image.to_vec(),
            answer: vec![0; ANSWER_SIZE],
            calls: numbered(&case.setup),
        };
        archive.play();
        archive.calls = numbered(&case.measured);
        archive
    }
}

impl Prepared for Archive {
    fn play(&mut self) {
        for table in &mut self.tables {
            for (client, call) in &self.calls {
                let lent = Lent {
                    area: &mut self.area,
                    image: &mut self.image,
                    answer: &mut self.answer,
                };
                play(table, lent, *client, call);
            }
        }
    }

    #[cfg(test)]
    fn answer(&self) -> &[u8] {
        &self.answer
    }
}

fn play(table: &mut [u8; TABLE_SIZE], lent: Lent, client: u64, call: &Call) {
    match call {
        Call::Request { bytes, .. } => {
            let told = raw::handle_request(table, lent, client, CLOCK, bytes);
            assert_eq!(told.outcome, raw::ANSWERED);
        }
        Call::Tick => {
            let Lent {
                area,
                image,
                answer,
            } = lent;
            let told = raw::tick(table, area, image, answer, CLOCK);
            assert_eq!(told.outcome, raw::NOTHING);
        }
        Call::Query => {
            black_box(raw::next_action_time(table));
        }
    }
}

/// Each call with its client's number.
fn numbered(calls: &[Call]) -> Vec<(u64, Call)> {
    let client = |call: &Call| match call {
        Call::Request { client, .. } => Client::Udp {
            address: Ipv4Addr::new(10, 0, 0, *client),
            port: 3819,
        }
        .number(),
        Call::Tick | Call::Query => 0,
    };
    calls
        .iter()
        .map(|call| (client(call), call.clone()))
        .collect()
}
