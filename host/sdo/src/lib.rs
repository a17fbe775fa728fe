//! The proved SDO server behind safe calls: [`Server`] keeps the table and the
//! area and is lent the dictionary image and the answer buffer; [`Player`] plays
//! a script of calls and writes its transcript; [`raw`] has the three calls as
//! they are exported.

mod player;
pub mod raw;
mod server;

pub use formats::client::Client;
pub use formats::refusal::Refusal;
pub use player::{Call, Outcome, Player};
pub use server::{Answered, Server};

/// The bytes of the area: 8,192 for each of eight clients.
pub const AREA_SIZE: usize = 65_536;

/// The bytes of the answer buffer.
pub const ANSWER_SIZE: usize = formats::frame::MOST_ANSWER;
