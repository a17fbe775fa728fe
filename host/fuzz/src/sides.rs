//! The two that play a script: the proved server and the Rust that was ported.

use formats::script::Item;
use oracle::replay::{self, write_call, Bench};
use oracle::stream::Fields;
use sdo::Player;

/// Plays a script item by item.
pub trait Side {
    /// The call's part of a transcript; None where the item is no call.
    fn play(&mut self, item: &Item) -> Option<Vec<u8>>;
}

/// Makes the two sides as they are at the start of a script: the Rust's, and
/// the archive's.
pub type Start<'a> = &'a dyn Fn() -> (Box<dyn Side>, Box<dyn Side>);

pub fn start() -> (Box<dyn Side>, Box<dyn Side>) {
    (
        Box::new(Rust(Bench::new())),
        Box::new(Archive(Player::new())),
    )
}

pub struct Archive(pub Player);

impl Side for Archive {
    fn play(&mut self, item: &Item) -> Option<Vec<u8>> {
        let call = self.0.play(item)?;
        Some(self.0.transcript(&call))
    }
}

struct Rust(Bench);

impl Side for Rust {
    fn play(&mut self, item: &Item) -> Option<Vec<u8>> {
        let outcome = self.0.apply(&oracle_item(item))?;
        let mut transcript = Vec::new();
        write_call(&self.0, outcome, &mut transcript);
        Some(transcript)
    }
}

/// The item as the oracle reads it.
fn oracle_item(item: &Item) -> replay::Item {
    let bytes = item.to_bytes();
    match replay::Item::read(&mut Fields::new(&bytes[..])) {
        Ok(Some(read)) => read,
        _ => panic!("the oracle does not read the item {item:?}"),
    }
}
