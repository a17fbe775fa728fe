//! Commands that reach dispatch: what they store of a download, and what is
//! asked of the Rust for those outside the domain of comparison.

use std::borrow::Cow;

use super::area::SHARE;
use super::record::Transfer;
use super::state::upload;
use crate::sdo::command::{CommandId, SdoCommand, Segmentation};
use crate::sdo::sequence::{ReceiveConnState, SequenceLayerHeader};
use crate::sdo::sequence_handler::SdoSequenceHandler;
use crate::sdo::server::SdoClientInfo;
use crate::sdo::state::SdoServerState;

/// Where a request's command id and its total stand.
const ID_AT: usize = 7;
const TOTAL_AT: usize = 12;

/// Abort codes.
pub const LENGTH: u32 = 0x0607_0010;
const OUT_OF_MEMORY: u32 = 0x0504_0005;

/// The command with which a request reaches dispatch: not on receive mark 3,
/// past the sequence step, decodable, without the aborted bit, no upload
/// running.
pub fn dispatched(
    before: Option<&SdoSequenceHandler>,
    client: SdoClientInfo,
    bytes: &[u8],
) -> Option<SdoCommand> {
    let command = SdoCommand::deserialize(&bytes[4..]).ok()?;
    let header = SequenceLayerHeader::deserialize(&bytes[..4]).ok()?;
    if command.header.is_aborted || header.receive_con == ReceiveConnState::ErrorResponse {
        return None;
    }
    // The Rust's own sequence step, on a copy.
    let mut copy = match before {
        Some(handler) if upload(handler).is_some() => return None,
        Some(handler) => SdoSequenceHandler::lent(
            client,
            handler.state().clone(),
            handler.next_send_sequence(),
            handler.current_receive_sequence(),
        ),
        None => SdoSequenceHandler::new(client),
    };
    copy.process_sequence_layer(header).ok()?;
    Some(command)
}

/// What a dispatched command stores of a download, and where in the share.
pub fn data_to_store<'a>(
    before: Option<&SdoSequenceHandler>,
    command: &'a SdoCommand,
) -> Option<(usize, &'a [u8])> {
    let SdoCommand {
        header, payload, ..
    } = command;
    if header.command_id != CommandId::WriteByIndex {
        return None;
    }
    match header.segmentation {
        Segmentation::Expedited => None,
        Segmentation::Initiate => {
            let total = command.data_size.unwrap_or(0) as usize;
            let accepted = payload.len() >= 4 && (1..=SHARE).contains(&total);
            accepted.then(|| (0, &payload[4..]))
        }
        Segmentation::Segment | Segmentation::Complete => {
            let SdoServerState::SegmentedDownload(transfer) = before?.state() else {
                return None;
            };
            let Transfer {
                transaction,
                total,
                offset,
                ..
            } = transfer.record();
            let end = offset as usize + payload.len();
            let whole = end == total as usize;
            let accepted = header.transaction_id == transaction
                && end <= total as usize
                && (whole || header.segmentation == Segmentation::Segment);
            accepted.then_some((offset as usize, payload))
        }
    }
}

/// The Rust accepts exactly what is stored; a whole download may still fail
/// to be written.
pub fn check_stored(command: &SdoCommand, stored: bool, aborted: bool) {
    if command.header.command_id == CommandId::WriteByIndex {
        match command.header.segmentation {
            Segmentation::Expedited => {}
            Segmentation::Initiate | Segmentation::Segment => assert_eq!(stored, !aborted),
            Segmentation::Complete => assert!(stored || aborted),
        }
    }
}

/// The request as the Rust is asked, and, if its abort code is to be another
/// one, which. Outside the domain of comparison, at dispatch:
/// - the other known ids are answered as Abort is, so Abort is asked;
/// - a total above 8,192 aborts 05040005 where total 0 aborts 06070010, so
///   total 0 is asked.
pub fn within_domain<'a>(
    bytes: &'a [u8],
    command: Option<&SdoCommand>,
) -> (Cow<'a, [u8]>, Option<u32>) {
    let Some(command) = command else {
        return (Cow::Borrowed(bytes), None);
    };
    let initiate = command.header.segmentation == Segmentation::Initiate;
    match command.header.command_id {
        CommandId::WriteByIndex
            if initiate
                && command.payload.len() >= 4
                && command
                    .data_size
                    .is_some_and(|total| total as usize > SHARE) =>
        {
            let mut asked = bytes.to_vec();
            asked[TOTAL_AT..TOTAL_AT + 4].fill(0);
            (Cow::Owned(asked), Some(OUT_OF_MEMORY))
        }
        CommandId::Nil
        | CommandId::WriteByIndex
        | CommandId::ReadByIndex
        | CommandId::MaxSegmentSize
        | CommandId::Abort => (Cow::Borrowed(bytes), None),
        _ => {
            let mut asked = bytes.to_vec();
            asked[ID_AT] = CommandId::Abort as u8;
            (Cow::Owned(asked), None)
        }
    }
}
