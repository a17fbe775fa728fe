//! How often a script meets what: each state, mark, code, refusal and end of
//! a transfer. The script is played on the Rust side.

mod command;
mod counts;
mod follow;
mod grid;
mod request;
mod tick;

use std::io::{Read, Write};

use counts::Counts;
use follow::Follow;

use super::bench::{Bench, MAX_CLOCK, Outcome};
use super::item::Item;
use super::record::{Record, State};
use super::table::{self, Table};
use crate::sdo::server::SdoClientInfo;
use crate::stream::{Fault, Fields, Progress};

/// Plays every item of `script` and prints the counts. On a fault, those of
/// what came before it.
pub fn coverage(script: impl Read, out: &mut impl Write) -> Result<(), (u64, Fault)> {
    let mut fields = Fields::new(script);
    let mut progress = Progress::new();
    let mut watch = Watch::new();
    let result = loop {
        let at = fields.offset();
        match Item::read(&mut fields) {
            Ok(Some(item)) => watch.see(&item),
            Ok(None) => break Ok(()),
            Err(fault) => break Err((at, fault)),
        }
        progress.step();
    };
    let printed = watch.counts.print(out);
    result.and(printed.map_err(|error| (fields.offset(), Fault::Io(error))))
}

/// A bench, and what has been seen on it.
struct Watch {
    bench: Bench,
    counts: Counts,
    follow: Follow,
    /// The clock of the request or tick before.
    clock: u64,
}

/// What a call met.
pub struct Before {
    table: Table,
    deadline: Option<u64>,
    image_sum: u32,
    /// Of a call that may write; else empty.
    image: Vec<u8>,
}

/// Where a request's command id stands, and the id of a write.
const ID_AT: usize = 7;
const WRITE: u8 = 1;

impl Before {
    fn of(bench: &Bench, item: &Item) -> Self {
        let image = match item {
            Item::Request { bytes, .. } if bytes.get(ID_AT) == Some(&WRITE) => {
                bench.sound_image().unwrap_or_default().to_vec()
            }
            _ => Vec::new(),
        };
        Self {
            table: *bench.table(),
            deadline: bench.deadline(),
            image_sum: bench.image_sum(),
            image,
        }
    }

    fn record(&self, client: &SdoClientInfo) -> Option<&Record> {
        let mut records = self.table.iter();
        records.find(|record| record.used && record.client == *client)
    }

    fn used(&self) -> usize {
        self.table.iter().filter(|record| record.used).count()
    }
}

impl Watch {
    fn new() -> Self {
        Self {
            bench: Bench::new(),
            counts: Counts::new(),
            follow: Follow::default(),
            clock: 0,
        }
    }

    fn see(&mut self, item: &Item) {
        let before = Before::of(&self.bench, item);
        let outcome = self.bench.apply(item);
        let Some(outcome) = outcome else {
            return self.lent(item, &before);
        };
        if table::is_sound(&before.table) {
            self.counts.used.add(&before.used().to_string());
        }
        match item {
            Item::Request {
                client,
                clock,
                bytes,
            } => {
                self.clock(*clock);
                self.request(client, bytes, &before, outcome);
            }
            Item::Tick(clock) => {
                self.clock(*clock);
                self.tick(*clock, &before, outcome);
            }
            _ => self.query(outcome),
        }
    }

    fn lent(&mut self, item: &Item, before: &Before) {
        let row = match item {
            Item::Image(_) => {
                self.follow.other_image();
                match self.bench.sound_image() {
                    Some(_) => "images lent, sound",
                    None => "images lent, not sound",
                }
            }
            Item::Table(table) => {
                self.lent_table(table, before);
                match table::is_sound(table) {
                    true => "tables lent, sound",
                    false => "tables lent, not sound",
                }
            }
            Item::Area(_) => {
                self.follow.other_area();
                "areas lent"
            }
            _ => "lengths lent",
        };
        self.counts.items.add(row);
    }

    fn lent_table(&mut self, table: &Table, before: &Before) {
        let uploads = |record: &&Record| record.used && matches!(record.state, State::Upload(_));
        let ended = before.table.iter().filter(uploads).count();
        let row = "replaced by a lent table";
        self.counts.upload_ends.add_many(row, ended as u64);
        self.follow.other_table();
        if !table::is_sound(table) {
            return;
        }
        for record in table {
            match &record.state {
                State::Upload(transfer) => {
                    self.follow.upload(record.client, transfer);
                }
                State::Download(_) => self.counts.downloads.add("lent"),
                _ => {}
            }
        }
    }

    fn clock(&mut self, clock: u64) {
        self.counts.clocks.add(match clock.cmp(&self.clock) {
            std::cmp::Ordering::Less => "set back",
            std::cmp::Ordering::Equal => "the same as before",
            std::cmp::Ordering::Greater => "later than before",
        });
        if clock == MAX_CLOCK {
            self.counts.clocks.add("2^63 - 1");
        } else if clock > MAX_CLOCK {
            self.counts.clocks.add("above 2^63 - 1");
        }
        self.clock = clock;
    }

    fn query(&mut self, outcome: Outcome) {
        self.counts.items.add("deadline queries");
        match outcome {
            Outcome::Refused(number) => self.counts.refusals.add(&format!("{number} query")),
            Outcome::Deadline(_) => self.counts.queries.add("a deadline"),
            _ => self.counts.queries.add("nothing"),
        }
    }
}
