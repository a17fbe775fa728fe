//! crates/powerlink-rs/src/sdo/sequence.rs, unchanged.
#![allow(dead_code)]

include!(concat!(env!("POWERLINK_RS_SDO"), "/sequence.rs"));
