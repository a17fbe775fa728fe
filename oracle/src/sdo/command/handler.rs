//! crates/powerlink-rs/src/sdo/command/handler.rs, unchanged.

include!(concat!(env!("POWERLINK_RS_SDO"), "/command/handler.rs"));
