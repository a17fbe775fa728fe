//! Runs the Rust on a codec script and writes what it gives.

use std::io::{self, Read, Write};

use super::item::{CommandEncode, HeaderEncode, Item};
use crate::PowerlinkError;
use crate::sdo::command::{CommandId, CommandLayerHeader, SdoCommand, Segmentation};
use crate::sdo::sequence::{ReceiveConnState, SendConnState, SequenceLayerHeader};
use crate::stream::{Fault, Fields, Progress};

/// What every byte of a lent buffer is before the call.
const FILL: u8 = 0xA5;

/// Document 01's numbers, and the transcript's own for "undecodable".
const DONE: u8 = 0;
const SHORT_BUFFER: u8 = 1;
const SHORT_HEADER: u8 = 5;
const UNDECODABLE: u8 = 254;

/// Runs every item of `script`. On a fault, what came before is written and
/// the faulty item's first byte is named.
pub fn run(script: impl Read, out: &mut impl Write) -> Result<(), (u64, Fault)> {
    let mut fields = Fields::new(script);
    let mut progress = Progress::new();
    let mut transcript = Vec::new();
    loop {
        let at = fields.offset();
        let Some(item) = Item::read(&mut fields).map_err(|fault| (at, fault))? else {
            return Ok(());
        };
        transcript.clear();
        match &item {
            Item::HeaderDecode(bytes) => header_decode(bytes, &mut transcript),
            Item::HeaderEncode(header) => header_encode(header, &mut transcript),
            Item::CommandDecode(bytes) => command_decode(bytes, &mut transcript),
            Item::CommandEncode(command) => command_encode(command, &mut transcript),
            Item::NextNumber(number) => transcript.push(next_number(*number)),
        }
        out.write_all(&transcript)
            .map_err(|error| (at, Fault::Io(error)))?;
        progress.step();
    }
}

fn header_decode(bytes: &[u8], out: &mut Vec<u8>) {
    match SequenceLayerHeader::deserialize(bytes) {
        Ok(header) => out.extend([
            DONE,
            header.receive_sequence_number,
            header.receive_con as u8,
            header.send_sequence_number,
            header.send_con as u8,
        ]),
        Err(error) => {
            assert_eq!(error, PowerlinkError::BufferTooShort);
            assert!(bytes.len() < 4);
            out.push(SHORT_HEADER);
        }
    }
}

fn header_encode(item: &HeaderEncode, out: &mut Vec<u8>) {
    let header = SequenceLayerHeader {
        receive_sequence_number: item.receive,
        receive_con: ReceiveConnState::try_from(item.receive_mark).expect("checked on reading"),
        send_sequence_number: item.send,
        send_con: SendConnState::try_from(item.send_mark).expect("checked on reading"),
    };
    let mut buffer = vec![FILL; item.buffer as usize];
    match header.serialize(&mut buffer) {
        Ok(written) => {
            out.extend([DONE, written as u8]);
            out.extend(buffer);
        }
        Err(error) => {
            assert_eq!(error, PowerlinkError::BufferTooShort);
            out.extend([SHORT_BUFFER, untouched(&buffer) as u8]);
        }
    }
}

fn command_decode(bytes: &[u8], out: &mut Vec<u8>) {
    match SdoCommand::deserialize(bytes) {
        Ok(command) => {
            let header = command.header;
            out.extend([
                DONE,
                header.transaction_id,
                header.is_response as u8,
                header.is_aborted as u8,
                header.segmentation as u8,
                header.command_id as u8,
            ]);
            out.extend(header.segment_size.to_le_bytes());
            out.push(command.data_size.is_some() as u8);
            out.extend(command.data_size.unwrap_or(0).to_le_bytes());
            out.extend((command.payload.len() as u16).to_le_bytes());
            out.extend(command.payload);
        }
        Err(error) => {
            // The Rust has one error for a short header and a cut payload.
            // Which of the two it is follows from the bytes.
            let unknown_id = bytes.len() >= 8 && CommandId::try_from(bytes[3]).is_err();
            let short_header = bytes.len() < 8
                || (!unknown_id
                    && bytes[2] >> 6 == Segmentation::Initiate as u8
                    && bytes.len() < 12);
            let expected = match unknown_id {
                true => PowerlinkError::InvalidEnumValue,
                false => PowerlinkError::BufferTooShort,
            };
            assert_eq!(error, expected, "the Rust's error for {bytes:02X?}");
            if !short_header && !unknown_id {
                let head = if bytes[2] >> 6 == 1 { 12 } else { 8 };
                let size = u16::from_le_bytes([bytes[4], bytes[5]]) as usize;
                assert!(bytes.len() < head + size, "no payload cut in {bytes:02X?}");
            }
            // sequence_handler.rs, handle_request: the transaction id of the
            // abort is taken from byte 0 where the command does not decode.
            let transaction = bytes.first().map_or(0, |flags| flags & 0x0F);
            out.extend([
                if short_header {
                    SHORT_HEADER
                } else {
                    UNDECODABLE
                },
                transaction,
            ]);
        }
    }
}

fn command_encode(item: &CommandEncode, out: &mut Vec<u8>) {
    let mut buffer = vec![FILL; item.buffer as usize];
    match command(item).serialize(&mut buffer) {
        Ok(written) => {
            out.push(DONE);
            out.extend((written as u16).to_le_bytes());
            out.extend(buffer);
        }
        Err(error) => {
            assert_eq!(error, PowerlinkError::BufferTooShort);
            assert!(buffer.len() < item.needed());
            // A listed difference: the Rust may have written the header by
            // now (see `short_buffer`), where document 01 changes nothing.
            out.extend([SHORT_BUFFER, 1]);
        }
    }
}

fn command(item: &CommandEncode) -> SdoCommand {
    SdoCommand {
        header: CommandLayerHeader {
            transaction_id: item.transaction,
            is_response: item.response,
            is_aborted: item.aborted,
            segmentation: Segmentation::try_from(item.segmentation).expect("checked on reading"),
            command_id: CommandId::try_from(item.id).expect("checked on reading"),
            segment_size: item.size,
        },
        data_size: item.total,
        payload: item.payload.clone(),
    }
}

/// The expression of sequence_handler.rs, `increment_send_seq` (line 61, and
/// again in `process_sequence_layer`, lines 564 and 648 for the send number,
/// line 592 for the receive number). It stands there on a private field, so it
/// is repeated here.
fn next_number(number: u8) -> u8 {
    number.wrapping_add(1) % 64
}

fn untouched(buffer: &[u8]) -> bool {
    buffer.iter().all(|&byte| byte == FILL)
}

/// Looks, from the smallest buffer and payload on, for commands whose buffer
/// the Rust refuses and has changed all the same. Prints the first, and the
/// first of each other kind: the total does not fit, or the payload does not.
pub fn short_buffer(out: &mut impl Write) -> io::Result<()> {
    let mut seen = Vec::new();
    for (buffer, length) in (0..=16).flat_map(|buffer| (0..=4).map(move |length| (buffer, length)))
    {
        for segmentation in 0..=3 {
            let initiate = segmentation == Segmentation::Initiate as u8;
            let item = CommandEncode {
                transaction: 7,
                response: true,
                aborted: false,
                segmentation,
                id: CommandId::ReadByIndex as u8,
                size: length,
                total: initiate.then_some(length as u32),
                payload: vec![0x11; length as usize],
                buffer,
            };
            let before = vec![FILL; buffer as usize];
            let mut after = before.clone();
            let Err(error) = command(&item).serialize(&mut after) else {
                continue;
            };
            let changed = (0..after.len()).filter(|&i| after[i] != before[i]).count();
            if changed == 0 || seen.contains(&(initiate, changed)) {
                continue;
            }
            let title = match seen.is_empty() {
                true => "the smallest command refused with its buffer changed",
                false => "the smallest of another kind",
            };
            seen.push((initiate, changed));
            writeln!(out, "{title}:")?;
            writeln!(out, "  {:?}", command(&item))?;
            writeln!(out, "  needs {} bytes, is lent {buffer}", item.needed())?;
            writeln!(out, "  before  {}", hex(&before))?;
            writeln!(out, "  after   {}", hex(&after))?;
            writeln!(out, "  the Rust returned {error:?}; {changed} bytes differ")?;
        }
    }
    for length in 0..4 {
        let mut buffer = vec![FILL; length];
        let result = SequenceLayerHeader::default().serialize(&mut buffer);
        let left = match untouched(&buffer) {
            true => "unchanged",
            false => "changed",
        };
        writeln!(
            out,
            "sequence header, lent {length} bytes: {result:?}, {left}"
        )?;
    }
    Ok(())
}

fn hex(bytes: &[u8]) -> String {
    let words: Vec<String> = bytes.iter().map(|byte| format!("{byte:02X}")).collect();
    words.join(" ")
}
