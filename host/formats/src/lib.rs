//! The bytes and words that the programs share: clients, frames, datagrams,
//! scripts of calls, dictionary images, checksums, and the words of a command.

pub mod abort;
pub mod args;
pub mod checksum;
pub mod client;
pub mod datagram;
pub mod dictionary;
pub mod file;
pub mod frame;
pub mod hex;
pub mod object;
pub mod random;
pub mod record;
pub mod refusal;
pub mod script;
pub mod text;

mod cursor;
