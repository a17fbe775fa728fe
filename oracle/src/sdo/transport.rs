//! Stands in for crates/powerlink-rs/src/sdo/transport.rs, which is not at
//! hand: what the server gives to be sent.

use crate::sdo::command::SdoCommand;
use crate::sdo::sequence::SequenceLayerHeader;
use crate::sdo::server::SdoClientInfo;

#[derive(Debug)]
pub struct SdoResponseData {
    pub client_info: SdoClientInfo,
    pub seq_header: SequenceLayerHeader,
    pub command: SdoCommand,
}
