//! What a script lends from item to item, and its calls: the refusals that
//! document 01 adds, then the Rust.

use super::area::{AREA, Area, adler32};
use super::around::Around;
use super::item::{Item, Lengths};
use super::record::Record;
use super::table::{self, RECORDS, Table};
use crate::PowerlinkError;
use crate::od::{ObjectDictionary, image};
use crate::sdo::server::SdoClientInfo;
use crate::sdo::transport::SdoResponseData;

/// What every byte of the answer buffer is before a call.
pub const FILL: u8 = 0xA5;

/// The least answer buffer, and the longest request.
pub const ANSWER: usize = 1_468;
pub const REQUEST: usize = 1_500;
pub const MAX_CLOCK: u64 = (1 << 63) - 1;

/// An answer's bytes are the buffer's first.
#[derive(Debug, Clone, Copy, PartialEq, Eq)]
pub enum Outcome {
    Answer {
        client: SdoClientInfo,
        length: usize,
    },
    Refused(u8),
    Deadline(u64),
    Nothing,
}

pub struct Bench {
    table: Table,
    area: Area,
    od: ObjectDictionary,
    image_is_sound: bool,
    image_sum: u32,
    lengths: Lengths,
    /// The Rust with the table's connections; nothing if it is not sound.
    around: Option<Around>,
    answer: Vec<u8>,
}

impl Default for Bench {
    fn default() -> Self {
        Self::new()
    }
}

impl Bench {
    /// As at the start of a script.
    pub fn new() -> Self {
        let mut bench = Self {
            table: table::empty(),
            area: Area::zeros(),
            od: ObjectDictionary::new(vec![0, 0]),
            image_is_sound: false,
            image_sum: 0,
            lengths: Lengths {
                answer: ANSWER,
                area: AREA,
                table: RECORDS,
            },
            around: None,
            answer: Vec::new(),
        };
        bench.look_at_image();
        bench.lend_table();
        bench
    }

    pub fn table(&self) -> &Table {
        &self.table
    }

    /// The record of a client that has one.
    pub fn record(&self, client: &SdoClientInfo) -> Option<&Record> {
        let mut records = self.table.iter();
        records.find(|record| record.used && record.client == *client)
    }

    /// The image, if it is sound.
    pub fn sound_image(&self) -> Option<&[u8]> {
        self.image_is_sound.then(|| self.od.image())
    }

    pub fn answer(&self) -> &[u8] {
        &self.answer
    }

    pub fn area_sum(&self) -> u32 {
        self.area.adler32()
    }

    pub fn image_sum(&self) -> u32 {
        self.image_sum
    }

    /// The earliest deadline of a sound table.
    pub fn deadline(&self) -> Option<u64> {
        self.around.as_ref()?.deadline()
    }

    /// A call gives an outcome; the other items only lend.
    pub fn apply(&mut self, item: &Item) -> Option<Outcome> {
        match item {
            Item::Request {
                client,
                clock,
                bytes,
            } => return Some(self.request(*client, *clock, bytes)),
            Item::Tick(clock) => return Some(self.tick(*clock)),
            Item::Query => return Some(self.query()),
            Item::Image(image) => {
                self.od = ObjectDictionary::new(image.clone());
                self.look_at_image();
            }
            Item::Table(table) => {
                self.table = **table;
                self.lend_table();
            }
            Item::Area(base) => {
                self.area = Area::pattern(*base);
                // The Rust's buffers are the shares.
                self.lend_table();
            }
            Item::Lengths(lengths) => self.lengths = *lengths,
        }
        None
    }

    fn request(&mut self, client: SdoClientInfo, clock: u64, bytes: &[u8]) -> Outcome {
        if let Some(number) = self.refusal(clock) {
            return Outcome::Refused(number);
        }
        let around = self.around.as_mut().expect("the table is sound");
        if bytes.len() > REQUEST {
            return Outcome::Refused(6);
        }
        if bytes.len() >= 4 && !around.has_room(&client) {
            return Outcome::Refused(7);
        }
        let answer = around.request(bytes, client, &mut self.od, &mut self.area, clock);
        self.read_back();
        match answer {
            Ok(answer) => self.encode(&answer),
            Err(PowerlinkError::BufferTooShort) => Outcome::Refused(5),
            Err(PowerlinkError::SdoSequenceError(_)) => Outcome::Refused(8),
            Err(PowerlinkError::SdoInvalidCommandPayload) => Outcome::Refused(9),
            Err(error) => panic!("the Rust's request gave {error:?}"),
        }
    }

    fn tick(&mut self, clock: u64) -> Outcome {
        if let Some(number) = self.refusal(clock) {
            return Outcome::Refused(number);
        }
        let around = self.around.as_mut().expect("the table is sound");
        let answer = around.tick(clock, &self.od);
        self.read_back();
        match answer {
            Ok(Some(answer)) => self.encode(&answer),
            Ok(None) => Outcome::Nothing,
            Err(error) => panic!("the Rust's tick gave {error:?}"),
        }
    }

    fn query(&mut self) -> Outcome {
        self.fill_answer();
        if self.lengths.table != RECORDS {
            return Outcome::Refused(1);
        }
        let Some(around) = &self.around else {
            return Outcome::Refused(3);
        };
        around
            .deadline()
            .map_or(Outcome::Nothing, Outcome::Deadline)
    }

    /// Whether no request is refused for what is lent.
    pub fn is_served(&self) -> bool {
        self.refusal_of_lent().is_none()
    }

    /// The numbers 1 to 4, the lowest first.
    fn refusal(&mut self, clock: u64) -> Option<u8> {
        self.fill_answer();
        let late = (clock > MAX_CLOCK).then_some(4);
        self.refusal_of_lent().or(late)
    }

    /// The numbers 1 to 3.
    fn refusal_of_lent(&self) -> Option<u8> {
        let Lengths {
            answer,
            area,
            table,
        } = self.lengths;
        if answer < ANSWER || area != AREA || table != RECORDS {
            Some(1)
        } else if !self.image_is_sound {
            Some(2)
        } else if self.around.is_none() {
            Some(3)
        } else {
            None
        }
    }

    fn fill_answer(&mut self) {
        self.answer.clear();
        self.answer.resize(self.lengths.answer, FILL);
    }

    fn encode(&mut self, answer: &SdoResponseData) -> Outcome {
        let head = answer.seq_header.serialize(&mut self.answer);
        let head = head.expect("1,468 bytes hold any answer");
        let rest = answer.command.serialize(&mut self.answer[head..]);
        let rest = rest.expect("1,468 bytes hold any answer");
        Outcome::Answer {
            client: answer.client_info,
            length: head + rest,
        }
    }

    /// Takes the table, and the image if it was written, from the Rust.
    fn read_back(&mut self) {
        if self.od.take_written() {
            self.look_at_image();
        }
        let around = self.around.as_ref().expect("the table was sound");
        around.check(&self.area);
        self.table = around.table();
        assert!(table::is_sound(&self.table), "a call left {:?}", self.table);
    }

    fn look_at_image(&mut self) {
        self.image_is_sound = image::is_sound(self.od.image());
        self.image_sum = adler32(self.od.image());
    }

    fn lend_table(&mut self) {
        self.around = table::is_sound(&self.table).then(|| Around::lent(&self.table, &self.area));
    }
}
