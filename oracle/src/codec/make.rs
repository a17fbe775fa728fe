//! Makes codec scripts: all short cases, random ones, and the small fixed one.

use std::io::{self, Write};

use super::item::{CommandEncode, HeaderEncode, Item, MAX_BUFFER, MAX_COMMAND};
use crate::rng::Rng;
use crate::sdo::command::CommandId;
use crate::stream::Progress;

/// The longest payload of one frame (MAX_EXPEDITED_PAYLOAD in handlers.rs).
const PIECE: usize = 1_452;

/// The segment sizes that are tried whatever the payload's length is.
const SIZES: [u16; 4] = [0, 1, PIECE as u16, 65_535];

/// The ids in the Rust's table.
fn known_ids() -> Vec<u8> {
    (0..=255)
        .filter(|&id| CommandId::try_from(id).is_ok())
        .collect()
}

/// `count` bytes by a simple rule.
fn pattern(start: usize, count: usize) -> Vec<u8> {
    (0..count).map(|i| (start + i * 7 + 1) as u8).collect()
}

fn header_encode(receive: u8, receive_mark: u8, send: u8, send_mark: u8, buffer: u8) -> Item {
    Item::HeaderEncode(HeaderEncode {
        receive,
        receive_mark,
        send,
        send_mark,
        buffer,
    })
}

/// A command's bytes, of which some or all may then be handed over.
struct Frame {
    first: u8,
    transaction: u8,
    flags: u8,
    id: u8,
    size: u16,
    reserved: [u8; 2],
    total: u32,
    payload: Vec<u8>,
}

impl Frame {
    fn bytes(&self) -> Vec<u8> {
        let mut bytes = vec![self.first, self.transaction, self.flags, self.id];
        bytes.extend(self.size.to_le_bytes());
        bytes.extend(self.reserved);
        if self.flags >> 6 == 1 {
            bytes.extend(self.total.to_le_bytes());
        }
        bytes.extend(&self.payload);
        bytes
    }
}

// ---------------------------------------------------------------- all cases

/// Every pair of header bytes, every header, every number, every id with every
/// flags byte, every segment size, every known command head; every short
/// length of each.
pub fn all(out: &mut impl Write) -> io::Result<()> {
    all_header_decodes(out)?;
    all_header_encodes(out)?;
    for number in 0..=255 {
        Item::NextNumber(number).write(out)?;
    }
    all_command_decodes(out)?;
    all_command_encodes(out)
}

fn all_header_decodes(out: &mut impl Write) -> io::Result<()> {
    for first in 0..=255u8 {
        for second in 0..=255u8 {
            let bytes = vec![first, second, first.wrapping_add(second), first ^ second];
            Item::HeaderDecode(bytes).write(out)?;
        }
    }
    for length in 0..=255 {
        Item::HeaderDecode(pattern(length, length)).write(out)?;
    }
    Ok(())
}

fn all_header_encodes(out: &mut impl Write) -> io::Result<()> {
    // Both sides' numbers below 64 with both marks, by the byte they become.
    for first in 0..=255u8 {
        for second in 0..=255u8 {
            let buffer = 4 + (first ^ second) % 3;
            header_encode(first >> 2, first & 3, second >> 2, second & 3, buffer).write(out)?;
        }
    }
    // Every number, those from 64 on too, on either side.
    for number in 0..=255u8 {
        for mark in 0..=3 {
            let other = number.wrapping_mul(7).wrapping_add(64);
            header_encode(number, mark, other, 3 - mark, 4).write(out)?;
            header_encode(other, 3 - mark, number, mark, 4).write(out)?;
        }
    }
    for length in 0..=255 {
        header_encode(length, 2, length.wrapping_mul(3), 1, length).write(out)?;
    }
    Ok(())
}

fn all_command_decodes(out: &mut impl Write) -> io::Result<()> {
    // Every id byte with every flags byte.
    for id in 0..=255u8 {
        for flags in 0..=255u8 {
            let start = id as usize + flags as usize;
            let length = start % 8;
            let frame = Frame {
                first: id ^ flags,
                transaction: id.wrapping_sub(flags),
                flags,
                id,
                size: length as u16,
                reserved: [flags, id],
                total: (start * 0x0101_0101) as u32,
                payload: pattern(start, length + start % 3),
            };
            Item::CommandDecode(frame.bytes()).write(out)?;
        }
    }
    // Every length from none to past the payload's end, and byte 0's low bits.
    let mut ids = known_ids();
    ids.extend([0x07, 0xFF]);
    for id in ids {
        for segmentation in 0..=3u8 {
            let frame = Frame {
                first: id.wrapping_add(segmentation * 5),
                transaction: 0xC3,
                flags: segmentation << 6 | 0x10,
                id,
                size: 6,
                reserved: [0, 0],
                total: 0x8001_0203,
                payload: pattern(id as usize, 14),
            };
            for length in 0..=22 {
                Item::CommandDecode(frame.bytes()[..length].to_vec()).write(out)?;
            }
        }
    }
    // Every byte 0 and every transaction id: short, unknown, decodable.
    for byte in 0..=255u8 {
        for (id, length) in [(2, 1), (2, 7), (0x99, 8), (2, 8), (2, 12)] {
            let frame = Frame {
                first: byte,
                transaction: byte.wrapping_mul(5),
                flags: 0,
                id,
                size: 4,
                reserved: [0, 0],
                total: 0,
                payload: pattern(byte as usize, 4),
            };
            Item::CommandDecode(frame.bytes()[..length].to_vec()).write(out)?;
        }
    }
    // Every segment size, with a payload of 9 at hand.
    for size in 0..=65_535u16 {
        let frame = Frame {
            first: 0,
            transaction: size as u8,
            flags: (size as u8) << 6,
            id: 1,
            size,
            reserved: [0, 0],
            total: size as u32 * 65_537,
            payload: pattern(size as usize, 9),
        };
        Item::CommandDecode(frame.bytes()).write(out)?;
    }
    Ok(())
}

fn all_command_encodes(out: &mut impl Write) -> io::Result<()> {
    // Every head, into every buffer from none to past the command's end.
    for id in known_ids() {
        for code in 0..32u8 {
            let segmentation = code & 3;
            let command = CommandEncode {
                transaction: id ^ code,
                response: code & 4 != 0,
                aborted: code & 8 != 0,
                segmentation,
                id,
                size: 4,
                total: (code & 16 != 0).then_some(0x0403_0201 + ((id as u32) << 24)),
                payload: pattern(code as usize, 4),
                buffer: 0,
            };
            for buffer in 0..=18 {
                Item::CommandEncode(CommandEncode {
                    buffer,
                    ..command.clone()
                })
                .write(out)?;
            }
        }
    }
    // Every transaction id, with sizes that are and are not the payload's.
    for byte in 0..=255u8 {
        for segmentation in 0..=3 {
            let command = CommandEncode {
                transaction: byte,
                response: true,
                aborted: byte & 1 != 0,
                segmentation,
                id: 2,
                size: byte as u16 * 257,
                total: (segmentation == 1).then_some(byte as u32 * 0x0101_0101),
                payload: pattern(byte as usize, byte as usize % 9),
                buffer: 0,
            };
            let buffer = command.needed() as u16;
            Item::CommandEncode(CommandEncode { buffer, ..command }).write(out)?;
        }
    }
    Ok(())
}

// ------------------------------------------------------------- random items

/// `count` items that follow from `seed` alone.
pub fn random(seed: u64, count: u64, out: &mut impl Write) -> io::Result<()> {
    let mut maker = Maker {
        rng: Rng::new(seed),
        ids: known_ids(),
        small: false,
    };
    let mut progress = Progress::new();
    for _ in 0..count {
        maker.item().write(out)?;
        progress.step();
    }
    Ok(())
}

struct Maker {
    rng: Rng,
    ids: Vec<u8>,
    /// Only payloads up to 40 bytes.
    small: bool,
}

impl Maker {
    fn item(&mut self) -> Item {
        match self.rng.within(0, 15) {
            0..=2 => self.header_decode(),
            3..=5 => self.header_encode(),
            6..=10 => self.command_decode(),
            11..=14 => self.command_encode(),
            _ => Item::NextNumber(self.rng.u8()),
        }
    }

    fn header_decode(&mut self) -> Item {
        let length = match self.rng.within(0, 15) {
            0 if !self.small => self.rng.within(0, 255),
            1..=7 => 4,
            _ => self.rng.within(0, 6),
        };
        Item::HeaderDecode(self.rng.bytes(length))
    }

    fn header_encode(&mut self) -> Item {
        let limit = self.rng.pick(&[63, 63, 63, 255]);
        let receive = self.rng.within(0, limit) as u8;
        let send = self.rng.within(0, limit) as u8;
        let receive_mark = self.rng.within(0, 3) as u8;
        let send_mark = self.rng.within(0, 3) as u8;
        let buffer = match self.rng.within(0, 15) {
            0 if !self.small => self.rng.u8(),
            _ => self.rng.within(0, 6) as u8,
        };
        header_encode(receive, receive_mark, send, send_mark, buffer)
    }

    fn payload(&mut self) -> Vec<u8> {
        let length = match self.rng.within(0, 31) {
            0 if !self.small => self.rng.within(0, 1_500),
            1 if !self.small => self.rng.pick(&[PIECE - 1, PIECE, PIECE + 1, 1_500]),
            2 => self.rng.within(0, 1),
            _ => self.rng.within(0, 40),
        };
        self.rng.bytes(length)
    }

    fn frame(&mut self) -> Frame {
        let payload = self.payload();
        let plain = self.rng.one_in(2);
        let flags = self.rng.u8();
        Frame {
            first: if plain { 0 } else { self.rng.u8() },
            transaction: self.rng.u8(),
            flags: if plain { flags & 0xF0 } else { flags },
            id: match self.rng.one_in(8) {
                true => self.rng.u8(),
                false => self.rng.pick(&self.ids),
            },
            size: payload.len() as u16,
            reserved: if plain {
                [0, 0]
            } else {
                [self.rng.u8(), self.rng.u8()]
            },
            total: self.rng.u32(),
            payload,
        }
    }

    fn command_decode(&mut self) -> Item {
        let mut frame = self.frame();
        let good = frame.bytes();
        let end = good.len();
        let mut bytes = match self.rng.within(0, 11) {
            // As it is.
            0 | 1 => good,
            // One byte changed.
            2 | 3 => {
                let mut bytes = good;
                // Half of them in the head, where it says most.
                let last = if self.rng.one_in(2) { 7 } else { end - 1 };
                let at = self.rng.within(0, last);
                bytes[at] ^= self.rng.within(1, 255) as u8;
                bytes
            }
            // Cut short around 8, around 12, around the payload's end, anywhere.
            4 => cut(good, self.rng.within(5, 11)),
            5 => cut(good, self.rng.within(9, 15)),
            6 => cut(good, end.saturating_sub(self.rng.within(0, 4))),
            7 => cut(good, self.rng.within(0, end)),
            // Bytes after the payload.
            8 => {
                let more = self.rng.within(1, 20);
                [good, self.rng.bytes(more)].concat()
            }
            // A segment size of its own.
            9 => {
                frame.size = self.rng.pick(&SIZES);
                frame.bytes()
            }
            // One away from the payload's length.
            10 => {
                let length = frame.payload.len() as u16;
                frame.size = if self.rng.one_in(2) {
                    length + 1
                } else {
                    length.saturating_sub(1)
                };
                frame.bytes()
            }
            // Any bytes.
            _ => {
                let length = self.rng.within(0, 40);
                self.rng.bytes(length)
            }
        };
        bytes.truncate(MAX_COMMAND as usize);
        Item::CommandDecode(bytes)
    }

    fn command_encode(&mut self) -> Item {
        let payload = self.payload();
        let segmentation = self.rng.within(0, 3) as u8;
        let total = match self.rng.one_in(4) {
            true => self.rng.one_in(2),
            false => segmentation == 1,
        };
        let mut command = CommandEncode {
            transaction: self.rng.u8(),
            response: self.rng.one_in(2),
            aborted: self.rng.one_in(2),
            segmentation,
            id: self.rng.pick(&self.ids),
            size: match self.rng.within(0, 7) {
                0 => self.rng.pick(&SIZES),
                1 => self.rng.u16(),
                _ => payload.len() as u16,
            },
            total: total.then(|| self.rng.u32()),
            payload,
            buffer: 0,
        };
        let needed = command.needed();
        let buffer = match self.rng.within(0, 7) {
            0 | 1 => needed,
            2 => needed - 1,
            3 => needed + 1,
            4 => self.rng.within(0, 16),
            5 => self.rng.within(0, needed),
            6 => self.rng.pick(&[7, 8, 9, 11, 12, 13]),
            _ => self.rng.within(needed, needed + 40),
        };
        command.buffer = (buffer as u16).min(MAX_BUFFER);
        Item::CommandEncode(command)
    }
}

fn cut(mut bytes: Vec<u8>, length: usize) -> Vec<u8> {
    bytes.truncate(length);
    bytes
}

// ---------------------------------------------------------- the fixed sample

/// The small script that the repository's own test replays.
pub fn sample(out: &mut impl Write) -> io::Result<()> {
    sample_headers(out)?;
    for number in [
        0, 1, 31, 32, 61, 62, 63, 64, 65, 126, 127, 128, 129, 191, 192, 253, 254, 255,
    ] {
        Item::NextNumber(number).write(out)?;
    }
    sample_command_decodes(out)?;
    sample_command_encodes(out)?;
    let mut maker = Maker {
        rng: Rng::new(301),
        ids: known_ids(),
        small: true,
    };
    for _ in 0..200 {
        maker.item().write(out)?;
    }
    Ok(())
}

fn sample_headers(out: &mut impl Write) -> io::Result<()> {
    // Document 01's bench card.
    Item::HeaderDecode(vec![0x16, 0x02, 0, 0]).write(out)?;
    Item::HeaderDecode(vec![0x00, 0x01, 0, 0]).write(out)?;
    Item::HeaderDecode(vec![0xFE, 0x04, 0, 0]).write(out)?;
    header_encode(5, 2, 0, 2, 4).write(out)?;
    header_encode(63, 2, 1, 0, 4).write(out)?;
    // Every pair of marks, both ways; bytes 2 and 3 are ignored on reading.
    for code in 0..16u8 {
        let (receive, send) = (code * 4 + 1, 63 - code * 3);
        let bytes = vec![
            receive << 2 | code & 3,
            send << 2 | code >> 2,
            code * 17,
            255 - code,
        ];
        Item::HeaderDecode(bytes).write(out)?;
        header_encode(receive, code & 3, send, code >> 2, 4 + code % 3).write(out)?;
    }
    // Every short length, and longer than needed.
    for length in 0..=8 {
        Item::HeaderDecode(pattern(0x95, length)).write(out)?;
        header_encode(length as u8, 1, 62, 3, length as u8).write(out)?;
    }
    Item::HeaderDecode(pattern(3, 255)).write(out)?;
    header_encode(10, 3, 20, 1, 255).write(out)?;
    // Numbers are written modulo 64.
    for number in [62, 63, 64, 65, 127, 128, 191, 192, 254, 255] {
        header_encode(number, 2, 0, 0, 4).write(out)?;
        header_encode(0, 0, number, 2, 4).write(out)?;
    }
    Ok(())
}

fn sample_command_decodes(out: &mut impl Write) -> io::Result<()> {
    // Document 01's bench card: a read, its answers, and a cut command.
    for bytes in [
        &[0x00, 0x07, 0x00, 0x02, 4, 0, 0, 0, 0x01, 0x20, 0x01, 0x00][..],
        &[0x00, 0x07, 0x10, 0x00, 2, 0, 0, 0, 0x34, 0x12],
        &[0x00, 0x07, 0x30, 0x00, 4, 0, 0, 0, 0x00, 0x00, 0x02, 0x06],
        &[0x00, 0x00, 0x10, 0x00, 0, 0, 0, 0],
        &[0x05, 0x07, 0x00],
    ] {
        Item::CommandDecode(bytes.to_vec()).write(out)?;
    }
    let frame = |id: u8, flags: u8, size: u16, payload: usize| Frame {
        first: id.wrapping_mul(3) ^ flags,
        transaction: id.wrapping_add(flags),
        flags,
        id,
        size,
        reserved: [flags, !id],
        total: 0x0102_0300 + id as u32,
        payload: pattern(id as usize, payload),
    };
    // Every known id with every segmentation; the other flags vary.
    for (place, id) in known_ids().into_iter().enumerate() {
        for segmentation in 0..=3u8 {
            let flags = segmentation << 6 | (place * 0x1D) as u8 & 0x3F;
            let length = (place + segmentation as usize) % 6;
            Item::CommandDecode(frame(id, flags, length as u16, length).bytes()).write(out)?;
        }
    }
    // Ids beside those of the table.
    for id in [
        0x07, 0x08, 0x1F, 0x22, 0x30, 0x33, 0x3F, 0x41, 0x6F, 0x71, 0x7F, 0x80, 0xFE, 0xFF,
    ] {
        Item::CommandDecode(frame(id, 0x00, 2, 2).bytes()).write(out)?;
        Item::CommandDecode(frame(id, 0x40, 2, 2).bytes()).write(out)?;
        Item::CommandDecode(cut(frame(id, 0x40, 2, 2).bytes(), 8)).write(out)?;
        Item::CommandDecode(cut(frame(id, 0x40, 2, 2).bytes(), 7)).write(out)?;
    }
    // Cut at every place, and with bytes after the payload.
    for flags in [0x10, 0x40, 0x90, 0xE0] {
        let bytes = frame(2, flags, 5, 9).bytes();
        for length in 0..=bytes.len() {
            Item::CommandDecode(cut(bytes.clone(), length)).write(out)?;
        }
    }
    // Segment sizes at the ends and around one piece.
    for flags in [0x10, 0x40, 0x80, 0xC0] {
        for (size, payload) in [
            (0, 0),
            (0, 3),
            (1, 0),
            (1, 1),
            (256, 2),
            (32_768, 9),
            (65_535, 9),
        ] {
            Item::CommandDecode(frame(2, flags, size, payload).bytes()).write(out)?;
        }
    }
    Item::CommandDecode(frame(2, 0x50, 1_452, 1_452).bytes()).write(out)?;
    Item::CommandDecode(frame(2, 0x90, 1_452, 1_452).bytes()).write(out)?;
    Item::CommandDecode(frame(2, 0x90, 1_453, 1_452).bytes()).write(out)?;
    Item::CommandDecode(frame(1, 0x40, 1_488, 1_488).bytes()).write(out)
}

fn sample_command_encodes(out: &mut impl Write) -> io::Result<()> {
    let command = |id: u8, segmentation: u8, length: usize| CommandEncode {
        transaction: id.wrapping_mul(9),
        response: true,
        aborted: false,
        segmentation,
        id,
        size: length as u16,
        total: (segmentation == 1).then_some(0x0A0B_0C00 + id as u32),
        payload: pattern(id as usize, length),
        buffer: 0,
    };
    let mut put = |command: CommandEncode, buffer: usize| {
        Item::CommandEncode(CommandEncode {
            buffer: buffer as u16,
            ..command
        })
        .write(out)
    };
    // Every known id with every segmentation; the flags and the total vary.
    for (place, id) in known_ids().into_iter().enumerate() {
        for segmentation in 0..=3 {
            let mut command = command(id, segmentation, (place + segmentation as usize) % 6);
            command.response = place & 1 != 0;
            command.aborted = place & 2 != 0;
            if place % 3 == 2 {
                command.total = if segmentation == 1 {
                    None
                } else {
                    Some(0x8765_4321)
                };
            }
            let needed = command.needed();
            put(command, needed + place % 3)?;
        }
    }
    // Every buffer from none to past the command's end.
    for segmentation in 0..=3 {
        for length in [0, 5] {
            let command = command(2, segmentation, length);
            for buffer in 0..=command.needed() + 2 {
                put(command.clone(), buffer)?;
            }
        }
    }
    // A size that is not the payload's length is written as it is.
    for size in SIZES {
        let command = CommandEncode {
            size,
            ..command(1, 2, 3)
        };
        put(command, 11)?;
    }
    // One whole piece: it fits, and is one byte too long.
    for segmentation in [1, 2] {
        let command = command(2, segmentation, PIECE);
        let needed = command.needed();
        put(command.clone(), needed)?;
        put(command, needed - 1)?;
    }
    Ok(())
}
