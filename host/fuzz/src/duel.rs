//! One script on both sides, call by call.

use crate::seen::{Seen, Tuple};
use crate::sides::{Side, Start};
use formats::script::Item;
use std::any::Any;
use std::cell::Cell;
use std::panic::{self, catch_unwind, AssertUnwindSafe};
use std::sync::Once;

/// A script that was played, as far as both sides agreed.
pub struct Duel {
    pub calls: u64,
    /// Of these, with an answer.
    pub answered: u64,
    /// Whether a tuple came that was not seen before.
    pub new: bool,
    /// The item at which the sides differ, and how.
    pub difference: Option<Difference>,
}

pub struct Difference {
    pub at: usize,
    /// What either side wrote, or the words it panicked with.
    pub rust: Result<Vec<u8>, String>,
    pub archive: Result<Vec<u8>, String>,
}

/// Plays the items until the sides differ. What is seen is noted.
pub fn duel(items: &[Item], start: Start, seen: &mut Seen) -> Duel {
    let (mut rust, mut archive) = start();
    let mut played = Duel {
        calls: 0,
        answered: 0,
        new: false,
        difference: None,
    };
    let mut table = formats::record::empty_table();
    for (at, item) in items.iter().enumerate() {
        let left = play(rust.as_mut(), item);
        let right = play(archive.as_mut(), item);
        match (left, right) {
            (Ok(None), Ok(None)) => {
                if let Item::Table(lent) = item {
                    table = **lent;
                }
            }
            (Ok(Some(left)), Ok(Some(right))) if left == right => {
                played.calls += 1;
                played.answered += u64::from(left[0] == 0);
                let tuple = Tuple::of(item, &table, &left);
                table = crate::seen::table_of(&left);
                played.new |= seen.note(tuple);
            }
            (left, right) => {
                let (rust, archive) = (left.map(some), right.map(some));
                played.difference = Some(Difference { at, rust, archive });
                return played;
            }
        }
    }
    played
}

/// Whether the sides differ at some item.
pub fn differs(items: &[Item], start: Start) -> bool {
    duel(items, start, &mut Seen::default())
        .difference
        .is_some()
}

fn some(transcript: Option<Vec<u8>>) -> Vec<u8> {
    transcript.unwrap_or_default()
}

fn play(side: &mut dyn Side, item: &Item) -> Result<Option<Vec<u8>>, String> {
    quietly(|| side.play(item)).map_err(|panic| {
        let words = panic.downcast_ref::<String>().cloned();
        let word = panic.downcast_ref::<&str>().map(|word| word.to_string());
        words.or(word).unwrap_or_else(|| "panicked".into())
    })
}

thread_local! {
    static QUIET: Cell<bool> = const { Cell::new(false) };
}
static HOOK: Once = Once::new();

/// Catches a panic, which says nothing: its words go to the report.
fn quietly<T>(play: impl FnOnce() -> T) -> Result<T, Box<dyn Any + Send>> {
    HOOK.call_once(|| {
        let loud = panic::take_hook();
        panic::set_hook(Box::new(move |info| {
            if !QUIET.get() {
                loud(info);
            }
        }));
    });
    QUIET.set(true);
    let result = catch_unwind(AssertUnwindSafe(play));
    QUIET.set(false);
    result
}
