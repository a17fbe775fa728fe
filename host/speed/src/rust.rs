//! The Rust that was ported: bare, as the oracle drives it, behind the tests of
//! what is lent, and with the table in its bytes before and after these.

use crate::cases::{Call, Case, CLOCK};
use crate::checks::{self, Lent};
use crate::coding;
use crate::contestants::Prepared;
use formats::record::TABLE_SIZE;
use oracle::od::ObjectDictionary;
use oracle::replay::table::Table;
use oracle::replay::{Bench, Item, ANSWER};
use oracle::sdo::server::{SdoClientInfo, SdoServer};
use oracle::sdo::transport::SdoResponseData;
use oracle::types::IpAddress;
use sdo::AREA_SIZE;
use std::hint::black_box;

pub struct Bare {
    servers: Vec<SdoServer>,
    dictionary: ObjectDictionary,
    answer: Vec<u8>,
    calls: Vec<Call>,
}

impl Bare {
    pub fn new(case: &Case, image: &[u8], copies: usize) -> Bare {
        let mut bare = Bare {
            servers: (0..copies).map(|_| SdoServer::new()).collect(),
            dictionary: ObjectDictionary::new(image.to_vec()),
            answer: vec![0; ANSWER],
            calls: case.setup.clone(),
        };
        bare.play();
        bare.calls = case.measured.clone();
        bare
    }
}

impl Prepared for Bare {
    fn play(&mut self) {
        for server in &mut self.servers {
            for call in &self.calls {
                play(server, &mut self.dictionary, &mut self.answer, call);
            }
        }
    }

    #[cfg(test)]
    fn answer(&self) -> &[u8] {
        &self.answer
    }
}

/// The bare one, and what is lent to the tests: the area's bytes and the
/// records of the table as they stand before each measured call.
pub struct Checked {
    bare: Bare,
    area: Vec<u8>,
    tables: Vec<Table>,
}

impl Checked {
    pub fn new(case: &Case, image: &[u8], copies: usize) -> Checked {
        // Before the servers: what this frees behind them would be looked
        // through for the measured calls' buffers.
        let tables = tables(case, image);
        Checked {
            bare: Bare::new(case, image, copies),
            area: vec![0; AREA_SIZE],
            tables,
        }
    }
}

impl Prepared for Checked {
    fn play(&mut self) {
        let Bare {
            servers,
            dictionary,
            answer,
            calls,
        } = &mut self.bare;
        for server in servers {
            for (call, table) in calls.iter().zip(&self.tables) {
                test(answer, &self.area, dictionary, black_box(table), call);
                play(server, dictionary, answer, call);
            }
        }
    }

    #[cfg(test)]
    fn answer(&self) -> &[u8] {
        &self.bare.answer
    }
}

/// The checked one behind the archive's interface: a table is 320 bytes, as
/// they stand before each measured call, every copy's own. They are decoded to
/// the records that are tested, and after a request or a tick the records are
/// encoded again. What the Rust changes is not carried over into the records:
/// those that were decoded are encoded.
pub struct Coded {
    bare: Bare,
    area: Vec<u8>,
    tables: Vec<Vec<[u8; TABLE_SIZE]>>,
    /// Where the records are decoded to.
    room: Table,
}

impl Coded {
    pub fn new(case: &Case, image: &[u8], copies: usize) -> Coded {
        let tables: Vec<_> = tables(case, image).iter().map(bytes_of).collect();
        Coded {
            bare: Bare::new(case, image, copies),
            area: vec![0; AREA_SIZE],
            tables: vec![tables; copies],
            room: coding::NO_TABLE,
        }
    }
}

impl Prepared for Coded {
    fn play(&mut self) {
        let Bare {
            servers,
            dictionary,
            answer,
            calls,
        } = &mut self.bare;
        for (server, tables) in servers.iter_mut().zip(&mut self.tables) {
            for (call, bytes) in calls.iter().zip(tables) {
                let table = coding::table_of(bytes, &mut self.room);
                test(answer, &self.area, dictionary, table, call);
                play(server, dictionary, answer, call);
                if !matches!(call, Call::Query) {
                    coding::encode(table, bytes);
                }
            }
        }
    }

    #[cfg(test)]
    fn answer(&self) -> &[u8] {
        &self.bare.answer
    }
}

fn bytes_of(table: &Table) -> [u8; TABLE_SIZE] {
    let mut bytes = [0; TABLE_SIZE];
    coding::encode(table, &mut bytes);
    bytes
}

/// What is lent passes the tests.
fn test(answer: &[u8], area: &[u8], od: &ObjectDictionary, table: &Table, call: &Call) {
    let lent = Lent {
        answer: answer.len(),
        area: area.len(),
        image: od.image(),
        table,
    };
    assert_eq!(refusal(&lent, call), None);
}

fn refusal(lent: &Lent, call: &Call) -> Option<u8> {
    match call {
        Call::Request { client, bytes } => {
            checks::of_request(lent, &client_info(*client), CLOCK, bytes)
        }
        Call::Tick => checks::of_tick(lent, CLOCK),
        Call::Query => checks::of_query(lent.table),
    }
}

/// The table before each measured call.
fn tables(case: &Case, image: &[u8]) -> Vec<Table> {
    let mut bench = Bench::new();
    bench.apply(&Item::Image(image.to_vec()));
    for call in &case.setup {
        bench.apply(&item(call));
    }
    let before = case.measured.iter().map(|call| {
        let table = *bench.table();
        bench.apply(&item(call));
        table
    });
    before.collect()
}

fn item(call: &Call) -> Item {
    match call {
        Call::Request { client, bytes } => Item::Request {
            client: client_info(*client),
            clock: CLOCK,
            bytes: bytes.clone(),
        },
        Call::Tick => Item::Tick(CLOCK),
        Call::Query => Item::Query,
    }
}

fn client_info(client: u8) -> SdoClientInfo {
    SdoClientInfo::Udp {
        source_ip: IpAddress([10, 0, 0, client]),
        source_port: 3819,
    }
}

fn play(server: &mut SdoServer, od: &mut ObjectDictionary, answer: &mut [u8], call: &Call) {
    match call {
        Call::Request { client, bytes } => {
            let told = server.handle_request(bytes, client_info(*client), od, CLOCK);
            encode(&told.expect("a case's requests are answered"), answer);
        }
        Call::Tick => {
            let told = server.tick(CLOCK, od).expect("a tick ends");
            assert!(told.is_none());
        }
        Call::Query => {
            black_box(server.next_action_time());
        }
    }
}

fn encode(told: &SdoResponseData, answer: &mut [u8]) {
    let head = told.seq_header.serialize(answer).expect("it fits");
    let rest = told
        .command
        .serialize(&mut answer[head..])
        .expect("it fits");
    black_box(head + rest);
}
