//! From the Rust's states to a record's, and back.

use super::record::{State, Transfer};
use crate::sdo::command::{CommandId, CommandLayerHeader, SdoCommand, Segmentation};
use crate::sdo::sequence_handler::SdoSequenceHandler;
use crate::sdo::state::{SdoServerState, SdoTransferState};

/// The longest piece (MAX_EXPEDITED_PAYLOAD in the Rust).
pub const PIECE: usize = 1_452;

pub fn upload(handler: &SdoSequenceHandler) -> Option<&SdoTransferState> {
    match handler.state() {
        SdoServerState::SegmentedUpload(transfer) => Some(transfer),
        _ => None,
    }
}

pub fn record_state(state: &SdoServerState) -> State {
    match state {
        SdoServerState::Closed => State::Closed,
        SdoServerState::Opening => State::Opening,
        SdoServerState::Established => State::Established,
        SdoServerState::SegmentedUpload(transfer) => State::Upload(transfer.record()),
        SdoServerState::SegmentedDownload(transfer) => State::Download(transfer.record()),
    }
}

/// The Rust's state for a record's: the buffer is the client's share, as far
/// as the total (upload) or the offset (download).
pub fn rust_state(state: &State, share: &[u8]) -> SdoServerState {
    match state {
        State::Closed => SdoServerState::Closed,
        State::Opening => SdoServerState::Opening,
        State::Established => SdoServerState::Established,
        State::Upload(record) => {
            let data = share[..record.total as usize].to_vec();
            let stored = record.stored.then(|| piece_before(record, share));
            SdoServerState::SegmentedUpload(SdoTransferState::lent(record, data, stored))
        }
        State::Download(record) => {
            let data = share[..record.offset as usize].to_vec();
            // Only a lent table has the flag in a download; nothing looks at
            // the command.
            let stored = record.stored.then(|| SdoCommand {
                header: CommandLayerHeader::default(),
                data_size: None,
                payload: Vec::new(),
            });
            SdoServerState::SegmentedDownload(SdoTransferState::lent(record, data, stored))
        }
    }
}

/// The piece of an upload that ends at the offset.
pub fn piece_before(record: &Transfer, share: &[u8]) -> SdoCommand {
    let end = record.offset as usize;
    let first = end == PIECE;
    SdoCommand {
        header: CommandLayerHeader {
            transaction_id: record.transaction,
            is_response: true,
            is_aborted: false,
            segmentation: match first {
                true => Segmentation::Initiate,
                false => Segmentation::Segment,
            },
            command_id: CommandId::ReadByIndex,
            segment_size: PIECE as u16,
        },
        data_size: first.then_some(record.total),
        payload: share[end - PIECE..end].to_vec(),
    }
}
