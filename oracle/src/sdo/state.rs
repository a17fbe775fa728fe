//! crates/powerlink-rs/src/sdo/state.rs, unchanged; beside it, the way from a
//! transfer's private fields to a record's and back.

use crate::log;

include!(concat!(env!("POWERLINK_RS_SDO"), "/state.rs"));

use crate::replay::Transfer;

impl SdoTransferState {
    /// A transfer as a record has it, with what the Rust holds besides. There
    /// is a stored command exactly if the record has the flag.
    pub fn lent(record: &Transfer, data_buffer: Vec<u8>, stored: Option<SdoCommand>) -> Self {
        assert_eq!(record.stored, stored.is_some());
        Self {
            transaction_id: record.transaction,
            total_size: record.total as usize,
            data_buffer,
            offset: record.offset as usize,
            index: record.index,
            sub_index: record.sub_index,
            deadline_us: record.deadline,
            retransmissions_left: record.retries,
            last_sent_segment: stored,
        }
    }

    pub fn record(&self) -> Transfer {
        Transfer {
            transaction: self.transaction_id,
            total: u32::try_from(self.total_size).expect("read from a u32"),
            offset: u32::try_from(self.offset).expect("at most the total, or a frame"),
            index: self.index,
            sub_index: self.sub_index,
            deadline: self.deadline_us,
            retries: self.retransmissions_left,
            stored: self.last_sent_segment.is_some(),
        }
    }

    pub fn data(&self) -> &[u8] {
        &self.data_buffer
    }

    pub fn stored(&self) -> Option<&SdoCommand> {
        self.last_sent_segment.as_ref()
    }
}
