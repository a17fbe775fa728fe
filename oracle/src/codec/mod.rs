//! The codec script: headers and commands to be decoded and encoded.

mod item;
mod make;
mod run;

pub use make::{all, random, sample};
pub use run::{run, short_buffer};
