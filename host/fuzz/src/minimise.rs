//! Drops items of a script as long as the sides still differ.

use crate::duel::differs;
use crate::sides::Start;
use formats::script::Item;

/// The script without items that are not needed for a difference.
pub fn minimise(mut items: Vec<Item>, start: Start) -> Vec<Item> {
    let mut size = items.len() / 2;
    while size > 0 {
        items = without_runs(items, size, start);
        size /= 2;
    }
    items
}

/// Without the runs of so many items that can go, from the end to the start.
fn without_runs(mut items: Vec<Item>, size: usize, start: Start) -> Vec<Item> {
    let mut end = items.len();
    while end > 0 {
        let from = end.saturating_sub(size);
        let mut fewer = items.clone();
        fewer.drain(from..end);
        if differs(&fewer, start) {
            items = fewer;
        }
        end = from;
    }
    items
}
