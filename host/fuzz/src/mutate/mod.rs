//! Changes a script as its format has it: items, and fields of items.

mod image;
mod lent;
mod numbers;
mod request;
mod table;

use crate::corpus::Corpus;
use formats::random::Random;
use formats::script::Item;

/// The most items of a mutant, and the most that are put in at once.
const MOST_ITEMS: usize = 300;
const MOST_SPLICED: u64 = 30;

/// Changes the script in one to eight places.
pub fn mutate(items: &mut Vec<Item>, corpus: &Corpus, random: &mut Random) {
    for _ in 0..=random.below(8) {
        if random.below(4) == 0 {
            reorder(items, corpus, random);
        } else {
            change_field(items, random);
        }
    }
    items.truncate(MOST_ITEMS);
}

/// Swaps, drops, repeats or puts in items.
fn reorder(items: &mut Vec<Item>, corpus: &Corpus, random: &mut Random) {
    if items.is_empty() {
        return splice(items, corpus, random);
    }
    let (one, other) = (place(items, random), place(items, random));
    match random.below(5) {
        0 => items.swap(one, other),
        1 => drop(items.remove(one)),
        2 => items.insert(other, items[one].clone()),
        3 => {
            let moved = items.remove(one);
            items.insert(other.min(items.len()), moved);
        }
        _ => splice(items, corpus, random),
    }
}

/// Puts a part of another script in.
fn splice(items: &mut Vec<Item>, corpus: &Corpus, random: &mut Random) {
    let other = corpus.any(random);
    let from = random.below(other.len() as u64 + 1) as usize;
    let count = (random.below(MOST_SPLICED) as usize + 1).min(other.len() - from);
    let at = random.below(items.len() as u64 + 1) as usize;
    items.splice(at..at, other[from..from + count].iter().cloned());
}

fn change_field(items: &mut [Item], random: &mut Random) {
    if items.is_empty() {
        return;
    }
    let others = numbers::Known::of(items);
    let at = place(items, random);
    match &mut items[at] {
        Item::Request {
            client,
            clock,
            bytes,
        } => match random.below(8) {
            0 => *clock = numbers::clock(*clock, &others, random),
            1 => *client = numbers::client(*client, &others, random),
            _ => request::change(bytes, random),
        },
        Item::Tick { clock } => *clock = numbers::clock(*clock, &others, random),
        Item::Query => {}
        Item::Image(bytes) => image::change(bytes, random),
        Item::Table(bytes) => table::change(bytes, &others, random),
        Item::Area(first) => *first = random.byte(),
        Item::Lengths(lengths) => lent::change(lengths, random),
    }
}

fn place(items: &[Item], random: &mut Random) -> usize {
    random.below(items.len() as u64) as usize
}

/// One of these.
fn one_of<T: Copy>(from: &[T], random: &mut Random) -> T {
    from[random.below(from.len() as u64) as usize]
}
