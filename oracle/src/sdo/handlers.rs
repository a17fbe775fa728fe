//! crates/powerlink-rs/src/sdo/handlers.rs, unchanged.

use crate::log;

include!(concat!(env!("POWERLINK_RS_SDO"), "/handlers.rs"));
