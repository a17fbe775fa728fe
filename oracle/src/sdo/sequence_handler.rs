//! crates/powerlink-rs/src/sdo/sequence_handler.rs, unchanged; beside it, the
//! making of a handler in any state.
#![allow(dead_code, unused_assignments)]

use crate::log;

include!(concat!(env!("POWERLINK_RS_SDO"), "/sequence_handler.rs"));

impl SdoSequenceHandler {
    pub fn lent(client_info: SdoClientInfo, state: SdoServerState, send: u8, receive: u8) -> Self {
        Self {
            state,
            send_sequence_number: send,
            last_received_sequence_number: receive,
            client_info,
        }
    }
}
