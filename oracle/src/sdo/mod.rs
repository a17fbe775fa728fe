//! Stands in for crates/powerlink-rs/src/sdo/mod.rs, which names modules that
//! are not at hand (asnd, client, embedded, transport and others). A module
//! here has the repository's name and place; its text is the repository's
//! file, included unchanged, and what reaches its private fields.

pub mod command;
mod handlers;
pub mod sequence;
pub mod sequence_handler;
pub mod server;
pub mod state;
pub mod transport;

const OD_IDX_SDO_TIMEOUT: u16 = 0x1300;
const OD_IDX_SDO_RETRIES: u16 = 0x1302;
