//! Document 01's refusals 1 to 7 as plain Rust: what is lent is tested before
//! the server is called.

use oracle::od::image;
use oracle::replay::table::{self, Table, RECORDS};
use oracle::replay::{Record, ANSWER, MAX_CLOCK, REQUEST};
use oracle::sdo::server::SdoClientInfo;
use sdo::AREA_SIZE;

/// What a call is lent, as far as it is tested.
pub struct Lent<'a> {
    pub answer: usize,
    pub area: usize,
    pub image: &'a [u8],
    pub table: &'a [Record],
}

pub fn of_request(lent: &Lent, client: &SdoClientInfo, clock: u64, request: &[u8]) -> Option<u8> {
    of_tick(lent, clock).or_else(|| {
        if request.len() < 4 {
            Some(5)
        } else if request.len() > REQUEST {
            Some(6)
        } else if !has_room(lent.table, client) {
            Some(7)
        } else {
            None
        }
    })
}

pub fn of_tick(lent: &Lent, clock: u64) -> Option<u8> {
    let Ok(table) = <&Table>::try_from(lent.table) else {
        return Some(1);
    };
    if lent.answer < ANSWER || lent.area != AREA_SIZE {
        Some(1)
    } else if !image::is_sound(lent.image) {
        Some(2)
    } else if !table::is_sound(table) {
        Some(3)
    } else if clock > MAX_CLOCK {
        Some(4)
    } else {
        None
    }
}

pub fn of_query(table: &[Record]) -> Option<u8> {
    match <&Table>::try_from(table) {
        Err(_) => Some(1),
        Ok(table) if !table::is_sound(table) => Some(3),
        Ok(_) => None,
    }
}

fn has_room(table: &[Record], client: &SdoClientInfo) -> bool {
    let used = table.iter().take_while(|record| record.used).count();
    used < RECORDS || table.iter().any(|record| record.client == *client)
}

#[cfg(test)]
mod tests {
    use super::*;
    use formats::record::RECORD_SIZE;
    use formats::script::{self, Item};
    use oracle::replay::{self, Profile};
    use oracle::stream::Fields;
    use sdo::{Outcome, Player};

    /// What is lent at some place of a script.
    struct Script {
        image: Vec<u8>,
        lengths: (usize, usize, usize),
    }

    impl Script {
        fn refusal(&self, item: &Item, table: &[Record]) -> Option<u8> {
            let (answer, area, _) = self.lengths;
            let lent = Lent {
                answer,
                area,
                image: &self.image,
                table,
            };
            match item {
                Item::Request {
                    client,
                    clock,
                    bytes,
                } => {
                    let client = client.to_bytes();
                    let client = replay::read_client(&mut Fields::new(&client[..])).unwrap();
                    of_request(&lent, &client, *clock, bytes)
                }
                Item::Tick { clock } => of_tick(&lent, *clock),
                _ => of_query(table),
            }
        }

        /// The records lent: fresh ones behind the eighth.
        fn records(&self, table: &[u8]) -> Vec<Record> {
            let record = |bytes| Record::read(&mut Fields::new(bytes)).unwrap();
            let mut records: Vec<Record> = table.chunks(RECORD_SIZE).map(record).collect();
            records.resize(self.lengths.2.max(RECORDS), Record::unused(0));
            records.truncate(self.lengths.2);
            records
        }
    }

    /// How often each refusal came; the archive and these tests say the same.
    fn compared(profile: &str) -> [u32; 8] {
        let mut bytes = Vec::new();
        let named = Profile::named(profile).unwrap();
        replay::script(3, 4_000, named, &mut bytes).unwrap();
        let mut player = Player::new();
        let mut lent = Script {
            image: vec![0, 0],
            lengths: (ANSWER, AREA_SIZE, RECORDS),
        };
        let mut counts = [0; 8];
        for item in script::read(&bytes).0 {
            if let Item::Lengths(to) = &item {
                lent.lengths = (to.answer as usize, to.area as usize, to.table.into());
            }
            lent.image = player.image().to_vec();
            let records = lent.records(player.table());
            let Some(call) = player.play(&item) else {
                continue;
            };
            let ours = lent.refusal(&item, &records);
            let theirs = match call.outcome {
                Outcome::Refused(refusal) => Some(refusal.number()).filter(|&n| n <= 7),
                _ => None,
            };
            assert_eq!(ours, theirs, "{profile}: {item:?}");
            counts[ours.unwrap_or(0) as usize] += 1;
        }
        counts
    }

    #[test]
    fn the_refusals_are_the_archives() {
        let profiles = ["one", "series", "tables", "images", "wild"];
        let counts = profiles.map(compared);
        for refusal in 0..8 {
            assert!(counts.iter().any(|of| of[refusal] > 0), "{counts:?}");
        }
    }
}
