//! What the mechanic tells people.

use crate::faults::Fate;
use formats::checksum::crc32;
use formats::frame::Frame;
use formats::hex;
use formats::text::readable;
use std::io::{self, IsTerminal, Write};

/// A value up to this length is shown in the final line.
const MOST_SHOWN: usize = 32;

/// Frame bytes shown of a long frame.
const FRAME_SHOWN: usize = 24;

pub fn sent(count: u64, frame: &Frame, fate: Fate) {
    let fate = match fate {
        Fate::Sent => String::new(),
        Fate::Lost => " LOST".to_string(),
        Fate::Twice => " SENT TWICE".to_string(),
        Fate::Late(delay) => format!(" HELD BACK {} ms", delay.as_millis()),
    };
    show("mechanic", count, frame, &fate);
}

pub fn heard(count: u64, frame: &Frame, lost: bool) {
    show("server  ", count, frame, if lost { " LOST" } else { "" });
}

fn show(who: &str, count: u64, frame: &Frame, fate: &str) {
    let bytes = hex::shortened(&frame.to_bytes(), FRAME_SHOWN);
    eprintln!("{who} {count:3}{fate}: {frame}\n             {bytes}");
}

/// How far a read is: renewed in place on a terminal, else a line each time.
pub fn progress(so_far: usize, total: usize) {
    let mut out = io::stderr().lock();
    // Progress that cannot be shown is no reason to fail.
    let _ = match out.is_terminal() {
        true => write!(out, "\r\x1b[Kmechanic: {so_far} of {total} bytes").and_then(|()| {
            match so_far == total {
                true => writeln!(out),
                false => out.flush(),
            }
        }),
        false => writeln!(out, "mechanic: {so_far} of {total} bytes"),
    };
}

/// Length and checksum; short values whole.
pub fn value(value: &[u8]) -> String {
    let sum = format!("{} bytes, CRC-32 {:08X}", value.len(), crc32(value));
    if value.is_empty() || value.len() > MOST_SHOWN {
        return sum;
    }
    match readable(value) {
        Some(text) => format!("{sum}: {} {text:?}", hex::spaced(value)),
        None => format!("{sum}: {}", hex::spaced(value)),
    }
}
