//! Stands in for crates/powerlink-rs/src/sdo/command/mod.rs, which is not at
//! hand: the other files name the types of base.rs and handler.rs as
//! `command::…`.

pub mod base;
pub mod handler;

pub use base::{
    CommandId, CommandLayerHeader, ReadByIndexRequest, ReadByNameRequest, ReadMultipleParamRequest,
    SdoCommand, Segmentation, WriteByIndexRequest, WriteByNameRequest,
};
pub use handler::{DefaultSdoHandler, SdoCommandHandler};
