//! crates/powerlink-rs/src/sdo/command/base.rs, unchanged.
#![allow(dead_code)]

include!(concat!(env!("POWERLINK_RS_SDO"), "/command/base.rs"));
