//! Compares two transcripts of one script and says in words where they first
//! differ.

use std::io::{self, Read, Write};

use super::head::Head;
use super::item::Item;
use super::record::write_client;
use super::table;
use super::transcript::{self, ANSWER, Call, DEADLINE, NOTHING, Next, RECORD, TABLE};
use super::words;
use crate::od::image;
use crate::sdo::server::SdoClientInfo;
use crate::stream::{Fault, Fields};

const LEFT: &str = "the Rust";
const RIGHT: &str = "the port";

/// Why two transcripts were not found equal.
pub enum Trouble {
    /// The script is broken, from this byte on.
    Script(u64, Fault),
    /// A transcript cannot be read, or the outcome not written.
    Io(io::Error),
}

impl From<io::Error> for Trouble {
    fn from(error: io::Error) -> Self {
        Self::Io(error)
    }
}

/// Where the comparison stands.
struct Place {
    /// Of the call, from 1 on.
    number: u64,
    /// The byte of the script at which its item begins.
    at: u64,
    table: [u8; TABLE],
    /// What was lent since the call before, in words.
    lent: Vec<String>,
}

/// True if the transcripts are equal and have the script's calls, all of them
/// and no more. Otherwise the first difference is written.
pub fn differ(
    script: impl Read,
    left: impl Read,
    right: impl Read,
    out: &mut impl Write,
) -> Result<bool, Trouble> {
    let mut script = Fields::new(script);
    let (mut left, mut right) = (Fields::new(left), Fields::new(right));
    let mut place = Place {
        number: 0,
        at: 0,
        table: transcript::table_bytes(&table::empty()),
        lent: Vec::new(),
    };
    loop {
        place.at = script.offset();
        let item = Item::read(&mut script).map_err(|fault| Trouble::Script(place.at, fault))?;
        let Some(item) = item else {
            return ends(&mut left, &mut right, &place, out);
        };
        if !item.is_call() {
            place.lend(&item);
            continue;
        }
        place.number += 1;
        match (Call::next(&mut left)?, Call::next(&mut right)?) {
            (Next::Call(one), Next::Call(other)) if one == other => {
                place.table = one.table;
                place.lent.clear();
            }
            (one, other) => {
                explain(&place, &item, one, other, out)?;
                return Ok(false);
            }
        }
    }
}

/// After the script's last call neither transcript may go on.
fn ends(
    left: &mut Fields<impl Read>,
    right: &mut Fields<impl Read>,
    place: &Place,
    out: &mut impl Write,
) -> Result<bool, Trouble> {
    let mut equal = true;
    for (who, next) in [(LEFT, Call::next(left)?), (RIGHT, Call::next(right)?)] {
        if !matches!(next, Next::End) {
            let number = place.number;
            writeln!(
                out,
                "{who}'s transcript goes on after the script's last call, call {number}"
            )?;
            equal = false;
        }
    }
    Ok(equal)
}

impl Place {
    fn lend(&mut self, item: &Item) {
        self.lent.push(match item {
            Item::Image(bytes) => {
                let sound = if image::is_sound(bytes) { "" } else { "not " };
                format!("an image of {} bytes, {sound}sound", bytes.len())
            }
            Item::Table(lent) => {
                self.table = transcript::table_bytes(lent);
                let sound = if table::is_sound(lent) { "" } else { "not " };
                format!("a table, {sound}sound")
            }
            Item::Area(base) => format!("an area from {base} on"),
            Item::Lengths(lengths) => format!(
                "lengths: answer {}, area {}, table {}",
                lengths.answer, lengths.area, lengths.table
            ),
            _ => unreachable!("a call lends nothing"),
        });
    }
}

fn explain(
    place: &Place,
    item: &Item,
    left: Next,
    right: Next,
    out: &mut impl Write,
) -> io::Result<()> {
    let Place { number, at, .. } = place;
    writeln!(
        out,
        "call {number} differs; its item begins at byte {at} of the script"
    )?;
    if !place.lent.is_empty() {
        writeln!(out, "lent since the call before: {}", place.lent.join("; "))?;
    }
    asked(place, item, out)?;
    said(LEFT, &left, out)?;
    said(RIGHT, &right, out)?;
    if let (Next::Call(left), Next::Call(right)) = (&left, &right) {
        writeln!(out, "what differs ({LEFT} / {RIGHT}):")?;
        answers(left, right, out)?;
        after(left, right, out)?;
    }
    Ok(())
}

/// The call in words.
fn asked(place: &Place, item: &Item, out: &mut impl Write) -> io::Result<()> {
    match item {
        Item::Request {
            client,
            clock,
            bytes,
        } => {
            let who = words::client(client);
            let length = bytes.len();
            writeln!(out, "request of {who}, clock {clock}, {length} bytes")?;
            frame(bytes, out)?;
            let record = transcript::record_of(&place.table, &client_bytes(client));
            let before = record.map_or("none".into(), transcript::record);
            writeln!(out, "  its record before: {before}")
        }
        Item::Tick(clock) => {
            writeln!(out, "tick, clock {clock}")?;
            for bytes in place.table.chunks(RECORD).filter(|bytes| bytes[0] == 1) {
                let who = transcript::client(&bytes[1..9]);
                writeln!(out, "  before: {who}: {}", transcript::record(bytes))?;
            }
            Ok(())
        }
        _ => writeln!(out, "deadline query"),
    }
}

fn client_bytes(client: &SdoClientInfo) -> Vec<u8> {
    let mut bytes = Vec::new();
    write_client(client, &mut bytes);
    bytes
}

/// A request or an answer in words.
fn frame(bytes: &[u8], out: &mut impl Write) -> io::Result<()> {
    match Head::read(bytes) {
        Some(head) => {
            writeln!(out, "  header: {}", words::head(&head))?;
            writeln!(out, "  command: {}", words::command(&bytes[4..]))
        }
        None => writeln!(out, "  no header: {}", words::start(bytes)),
    }
}

/// What one side has for the call.
fn said(who: &str, next: &Next, out: &mut impl Write) -> io::Result<()> {
    let call = match next {
        Next::Call(call) => call,
        Next::End => return writeln!(out, "{who}: its transcript is cut short before this call"),
        Next::Cut => return writeln!(out, "{who}: its transcript is cut short inside this call"),
    };
    match call.code {
        ANSWER => {
            let (to, length) = (transcript::client(&call.client), call.answer.len());
            writeln!(out, "{who}: answers {to}, {length} bytes")?;
            frame(&call.answer, out)
        }
        DEADLINE => writeln!(out, "{who}: deadline {}", call.deadline),
        NOTHING => writeln!(out, "{who}: nothing"),
        number => writeln!(
            out,
            "{who}: refused with {number} ({})",
            words::refusal(number)
        ),
    }
}

/// Where the outcomes differ beyond their words.
fn answers(left: &Call, right: &Call, out: &mut impl Write) -> io::Result<()> {
    if left.code != right.code {
        writeln!(out, "  outcome: {} / {}", left.code, right.code)?;
    } else if left.client != right.client {
        let (left, right) = (&left.client, &right.client);
        let (left, right) = (transcript::client(left), transcript::client(right));
        writeln!(out, "  client answered: {left} / {right}")?;
    }
    if left.code == ANSWER && right.code == ANSWER {
        let (left, right) = (&left.answer, &right.answer);
        if left.len() != right.len() {
            writeln!(out, "  answer's length: {} / {}", left.len(), right.len())?;
        }
        let mut pairs = left.iter().zip(right).enumerate();
        if let Some((at, (left, right))) = pairs.find(|(_, (left, right))| left != right) {
            writeln!(out, "  answer's byte {at}: {left:02x} / {right:02x}")?;
        }
    }
    if left.deadline != right.deadline {
        writeln!(out, "  deadline: {} / {}", left.deadline, right.deadline)?;
    }
    if left.untouched != right.untouched {
        let words = |call: &Call| match call.untouched {
            1 => "untouched",
            _ => "changed",
        };
        writeln!(
            out,
            "  buffer past the answer: {} / {}",
            words(left),
            words(right)
        )?;
    }
    Ok(())
}

/// What the call left: records, area and image.
fn after(left: &Call, right: &Call, out: &mut impl Write) -> io::Result<()> {
    let records = left.table.chunks(RECORD).zip(right.table.chunks(RECORD));
    for (number, (one, other)) in records.enumerate() {
        for (name, one, other) in transcript::record_differences(one, other) {
            writeln!(out, "  record {number}, {name}: {one} / {other}")?;
        }
    }
    let sums = [
        ("area", left.area_sum, right.area_sum),
        ("image", left.image_sum, right.image_sum),
    ];
    for (name, one, other) in sums.iter().filter(|(_, one, other)| one != other) {
        writeln!(out, "  Adler-32 of the {name}: {one:08x} / {other:08x}")?;
    }
    Ok(())
}
