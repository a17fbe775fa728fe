//! An image as a table for people.

use formats::checksum::crc32;
use formats::dictionary::Entry;
use formats::hex;
use formats::text::readable;

/// Longer values are shown by length and checksum.
const MOST_SHOWN: usize = 24;

pub fn table(entries: &[Entry], size: usize) -> String {
    let mut lines = vec![format!(
        "{:8}{:20}{:>8} {:>7}  value",
        "object", "kind", "capacity", "length"
    )];
    lines.extend(entries.iter().map(line));
    lines.push(format!("{} objects, {size} bytes", entries.len()));
    lines.join("\n")
}

fn line(entry: &Entry) -> String {
    let kind = match (entry.variable, entry.read_only) {
        (false, false) => "fixed",
        (false, true) => "fixed,read-only",
        (true, false) => "variable",
        (true, true) => "variable,read-only",
    };
    format!(
        "{:8}{kind:20}{:8} {:7}  {}",
        entry.object.to_string(),
        entry.capacity,
        entry.value.len(),
        value(&entry.value)
    )
}

/// Text in quotes where it is some, else bytes.
fn value(value: &[u8]) -> String {
    match readable(value) {
        Some(text) if text.chars().count() <= MOST_SHOWN => format!("{text:?}"),
        _ if value.len() <= MOST_SHOWN => hex::spaced(value),
        _ => format!(
            "{}, CRC-32 {:08X}",
            hex::shortened(value, MOST_SHOWN / 3),
            crc32(value)
        ),
    }
}
