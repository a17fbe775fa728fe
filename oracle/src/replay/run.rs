//! Plays a script and writes the transcript.

use std::io::{Read, Write};

use super::bench::{Bench, FILL, Outcome};
use super::item::Item;
use super::record::write_client;
use crate::stream::{Fault, Fields, Progress};

/// Plays every item of `script`. On a fault, what came before is written and
/// the faulty item's first byte is named.
pub fn run(script: impl Read, out: &mut impl Write) -> Result<(), (u64, Fault)> {
    let mut fields = Fields::new(script);
    let mut progress = Progress::new();
    let mut bench = Bench::new();
    let mut transcript = Vec::new();
    loop {
        let at = fields.offset();
        let Some(item) = Item::read(&mut fields).map_err(|fault| (at, fault))? else {
            return Ok(());
        };
        if let Some(outcome) = bench.apply(&item) {
            transcript.clear();
            write_call(&bench, outcome, &mut transcript);
            out.write_all(&transcript)
                .map_err(|error| (at, Fault::Io(error)))?;
        }
        progress.step();
    }
}

/// What the transcript has of one call.
pub fn write_call(bench: &Bench, outcome: Outcome, out: &mut Vec<u8>) {
    let answered = match outcome {
        Outcome::Answer { client, length } => {
            out.push(0);
            write_client(&client, out);
            out.extend((length as u16).to_le_bytes());
            out.extend(&bench.answer()[..length]);
            length
        }
        Outcome::Refused(number) => {
            out.push(number);
            0
        }
        Outcome::Deadline(time) => {
            out.push(254);
            out.extend(time.to_le_bytes());
            0
        }
        Outcome::Nothing => {
            out.push(255);
            0
        }
    };
    let untouched = bench.answer()[answered..].iter().all(|&byte| byte == FILL);
    out.push(untouched as u8);
    for record in bench.table() {
        record.write(out);
    }
    out.extend(bench.area_sum().to_le_bytes());
    out.extend(bench.image_sum().to_le_bytes());
}
