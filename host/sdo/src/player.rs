//! Plays the items of a script and writes the transcript.

use crate::raw::{self, Lent};
use crate::{ANSWER_SIZE, AREA_SIZE};
use formats::checksum::adler32;
use formats::client::Client;
use formats::record::{self, RECORD_SIZE};
use formats::refusal::Refusal;
use formats::script::{Item, Lengths};

/// What every byte of the answer buffer is before a call.
const FILL: u8 = 0xA5;

/// What is lent as a script has it, and played on from item to item.
pub struct Player {
    table: Vec<u8>,
    area: Vec<u8>,
    /// The area's checksum, made anew when the area changes.
    area_sum: u32,
    image: Vec<u8>,
    lengths: Lengths,
}

#[derive(Debug, Clone, PartialEq, Eq)]
pub enum Outcome {
    Answered { client: Client, bytes: Vec<u8> },
    Refused(Refusal),
    Deadline(u64),
    Nothing,
}

/// A call that was played.
#[derive(Debug, Clone, PartialEq, Eq)]
pub struct Call {
    pub outcome: Outcome,
    /// Whether the answer buffer is as it was past the answer.
    pub clean: bool,
}

impl Default for Player {
    fn default() -> Player {
        Player::new()
    }
}

impl Player {
    /// As at the start of a script.
    pub fn new() -> Player {
        let area = vec![0; AREA_SIZE];
        Player {
            table: record::empty_table().to_vec(),
            area_sum: adler32(&area),
            area,
            image: vec![0, 0],
            lengths: Lengths {
                answer: ANSWER_SIZE as u32,
                area: AREA_SIZE as u32,
                table: record::RECORDS as u8,
            },
        }
    }

    /// The image as it is now.
    pub fn image(&self) -> &[u8] {
        &self.image
    }

    /// The table as it is now.
    pub fn table(&self) -> &[u8] {
        &self.table
    }

    /// Plays one item; None where it is no call.
    pub fn play(&mut self, item: &Item) -> Option<Call> {
        match item {
            Item::Request {
                client,
                clock,
                bytes,
            } => return Some(self.request(*client, *clock, bytes)),
            Item::Tick { clock } => return Some(self.tick(*clock)),
            Item::Query => return Some(self.query()),
            Item::Image(image) => self.image.clone_from(image),
            Item::Table(table) => self.table = table.to_vec(),
            Item::Area(first) => self.take_area(patterned(*first)),
            Item::Lengths(lengths) => self.lengths = *lengths,
        }
        None
    }

    fn request(&mut self, client: Client, clock: u64, request: &[u8]) -> Call {
        let (mut table, mut area) = (self.lent_table(), self.lent_area());
        let mut answer = self.lent_answer();
        let lent = Lent {
            area: &mut area,
            image: &mut self.image,
            answer: &mut answer,
        };
        let told = raw::handle_request(&mut table, lent, client.number(), clock, request);
        keep(&mut self.table, &table);
        area.truncate(AREA_SIZE);
        self.take_area(area);
        called(told, &answer)
    }

    fn tick(&mut self, clock: u64) -> Call {
        let (mut table, area) = (self.lent_table(), self.lent_area());
        let mut answer = self.lent_answer();
        let told = raw::tick(&mut table, &area, &self.image, &mut answer, clock);
        keep(&mut self.table, &table);
        called(told, &answer)
    }

    fn query(&self) -> Call {
        let told = raw::next_action_time(&self.lent_table());
        let outcome = match told.outcome {
            raw::DEADLINE => Outcome::Deadline(told.at),
            raw::NOTHING => Outcome::Nothing,
            refused => Outcome::Refused(raw::refusal(refused)),
        };
        let clean = true;
        Call { outcome, clean }
    }

    /// Takes the area back, as far as it was lent.
    fn take_area(&mut self, lent: Vec<u8>) {
        if self.area[..lent.len()] != lent {
            keep(&mut self.area, &lent);
            self.area_sum = adler32(&self.area);
        }
    }

    fn lent_table(&self) -> Vec<u8> {
        let mut table = self.table.clone();
        table.extend(record::fresh(0));
        table.truncate(RECORD_SIZE * usize::from(self.lengths.table));
        table
    }

    fn lent_area(&self) -> Vec<u8> {
        let length = self.lengths.area as usize;
        let mut area = Vec::with_capacity(length);
        area.extend(&self.area[..length.min(AREA_SIZE)]);
        area.resize(length, 0);
        area
    }

    fn lent_answer(&self) -> Vec<u8> {
        vec![FILL; self.lengths.answer as usize]
    }

    /// The call's part of a transcript.
    pub fn transcript(&self, call: &Call) -> Vec<u8> {
        let mut bytes = call.outcome.to_bytes();
        bytes.push(call.clean.into());
        bytes.extend(record::canonical_table(&self.table));
        bytes.extend(self.area_sum.to_le_bytes());
        bytes.extend(adler32(&self.image).to_le_bytes());
        bytes
    }
}

impl Outcome {
    fn to_bytes(&self) -> Vec<u8> {
        match self {
            Outcome::Answered { client, bytes } => {
                let length = (bytes.len() as u16).to_le_bytes();
                [&[0], &client.to_bytes()[..], &length, bytes].concat()
            }
            Outcome::Refused(refusal) => vec![refusal.number()],
            Outcome::Deadline(at) => [&[raw::DEADLINE as u8], &at.to_le_bytes()[..]].concat(),
            Outcome::Nothing => vec![raw::NOTHING as u8],
        }
    }
}

fn called(told: raw::Answer, answer: &[u8]) -> Call {
    let (bytes, past) = answer.split_at(told.length as usize);
    let outcome = match (told.outcome, Client::from_number(told.client)) {
        (raw::ANSWERED, Some(client)) => Outcome::Answered {
            client,
            bytes: bytes.to_vec(),
        },
        (raw::NOTHING, _) => Outcome::Nothing,
        (refused, _) => Outcome::Refused(raw::refusal(refused)),
    };
    Call {
        outcome,
        clean: past.iter().all(|&byte| byte == FILL),
    }
}

/// Takes back what was lent, as far as it is ours.
fn keep(own: &mut [u8], lent: &[u8]) {
    let common = own.len().min(lent.len());
    own[..common].copy_from_slice(&lent[..common]);
}

fn patterned(first: u8) -> Vec<u8> {
    (0..AREA_SIZE)
        .map(|at| (usize::from(first) + at * 7 + at / 256) as u8)
        .collect()
}
