//! The call script: requests, ticks and deadline queries on a lent table, area
//! and image, played on the whole Rust server. REPLAY.md has the formats.

mod area;
mod around;
mod bench;
mod coverage;
mod differ;
mod dispatch;
mod head;
mod item;
mod make;
mod record;
mod run;
mod state;
pub mod table;
mod transcript;
mod words;

pub use bench::{ANSWER, Bench, MAX_CLOCK, Outcome, REQUEST};
pub use coverage::coverage;
pub use differ::{Trouble, differ};
pub use item::{Item, Lengths};
pub use make::{Profile, sample, script};
pub use record::{Record, State, Transfer, read_client};
pub use run::{run, write_call};
