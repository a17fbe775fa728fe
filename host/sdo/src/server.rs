//! The server with its own table and area.

use crate::raw::{self, Lent};
use crate::AREA_SIZE;
use formats::client::Client;
use formats::record::{self, Record, State, RECORD_SIZE, TABLE_SIZE};
use formats::refusal::Refusal;

/// The table of eight connections, and the area that transfers are held in.
///
/// The image and the answer buffer are lent to each call. Clocks are in
/// microseconds, from any start.
#[derive(Clone)]
pub struct Server {
    table: [u8; TABLE_SIZE],
    area: Vec<u8>,
}

/// An answer that stands in the lent buffer's first `length` bytes.
#[derive(Debug, Clone, Copy, PartialEq, Eq)]
pub struct Answered {
    pub client: Client,
    pub length: usize,
}

impl Default for Server {
    fn default() -> Server {
        Server::new()
    }
}

impl Server {
    /// A server that nobody is connected to.
    pub fn new() -> Server {
        Server {
            table: record::empty_table(),
            area: vec![0; AREA_SIZE],
        }
    }

    /// Serves a frame of a client.
    pub fn handle_request(
        &mut self,
        image: &mut [u8],
        answer: &mut [u8],
        client: Client,
        clock: u64,
        request: &[u8],
    ) -> Result<Answered, Refusal> {
        let area = &mut self.area;
        let lent = Lent {
            area,
            image,
            answer,
        };
        let told = raw::handle_request(&mut self.table, lent, client.number(), clock, request);
        match told.outcome {
            raw::ANSWERED => Ok(answered(told)),
            refused => Err(raw::refusal(refused)),
        }
    }

    /// Answers the first client that is due, if one is, and drops closed ones.
    pub fn tick(
        &mut self,
        image: &[u8],
        answer: &mut [u8],
        clock: u64,
    ) -> Result<Option<Answered>, Refusal> {
        let told = raw::tick(&mut self.table, &self.area, image, answer, clock);
        match told.outcome {
            raw::ANSWERED => Ok(Some(answered(told))),
            raw::NOTHING => Ok(None),
            refused => Err(raw::refusal(refused)),
        }
    }

    /// The earliest deadline, if there is one.
    pub fn next_action_time(&self) -> Result<Option<u64>, Refusal> {
        let told = raw::next_action_time(&self.table);
        match told.outcome {
            raw::DEADLINE => Ok(Some(told.at)),
            raw::NOTHING => Ok(None),
            refused => Err(raw::refusal(refused)),
        }
    }

    /// Whether a tick at this clock would answer somebody or drop a record. Where
    /// it is false a tick would leave every byte as it is and answer nobody.
    pub fn tick_matters(&self, clock: u64) -> bool {
        let due = matches!(self.next_action_time(), Ok(Some(at)) if at <= clock);
        due || self.connected().any(|record| record.state == State::Closed)
    }

    /// The records in use.
    pub fn connected(&self) -> impl Iterator<Item = Record> + '_ {
        self.table
            .chunks_exact(RECORD_SIZE)
            .filter_map(|bytes| Record::read(bytes.try_into().ok()?))
            .filter(|record| record.used)
    }

    /// The table's bytes.
    pub fn table(&self) -> &[u8; TABLE_SIZE] {
        &self.table
    }

    /// The area's bytes.
    pub fn area(&self) -> &[u8] {
        &self.area
    }
}

fn answered(told: raw::Answer) -> Answered {
    let client = Client::from_number(told.client)
        .unwrap_or_else(|| panic!("the archive answered {:016X}, no client", told.client));
    Answered {
        client,
        length: told.length as usize,
    }
}
