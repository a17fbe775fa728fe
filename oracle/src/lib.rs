//! The Rust of powerlink-rs as an oracle: its files are taken in unchanged, by
//! path, and run on scripts of items. README.md says how.

extern crate alloc;

pub mod codec;
pub mod frame;
mod hal;
mod log;
pub mod od;
pub mod replay;
mod rng;
pub mod sdo;
pub mod stream;
pub mod types;

#[cfg(not(feature = "sdo-udp"))]
compile_error!("the scripts have clients over UDP: build with the feature sdo-udp");

// Stands in for the repository's lib.rs, which is not at hand: the files taken
// in name the error by this path too.
pub use hal::PowerlinkError;
