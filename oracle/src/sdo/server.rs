//! crates/powerlink-rs/src/sdo/server.rs, unchanged; beside it, the way to its
//! connections.
#![allow(dead_code)]

use crate::log;

include!(concat!(env!("POWERLINK_RS_SDO"), "/server.rs"));

impl SdoServer {
    pub fn connections(&self) -> &BTreeMap<SdoClientInfo, SdoSequenceHandler> {
        &self.connections
    }

    pub fn connections_mut(&mut self) -> &mut BTreeMap<SdoClientInfo, SdoSequenceHandler> {
        &mut self.connections
    }
}
