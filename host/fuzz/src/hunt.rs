//! Plays mutants on both sides until they differ or enough was played.

use crate::corpus::Corpus;
use crate::duel::{duel, Difference};
use crate::minimise::minimise;
use crate::mutate::mutate;
use crate::seen::Seen;
use crate::sides::Start;
use formats::random::Random;
use formats::script::Item;
use std::time::{Duration, Instant};

/// When the hunt ends, and where it begins.
pub struct Limits {
    pub calls: u64,
    pub seconds: Option<u64>,
    pub seed: u64,
}

/// What was played.
#[derive(Default)]
pub struct Played {
    pub calls: u64,
    /// Of these, with an answer.
    pub answered: u64,
    pub scripts: u64,
    pub tuples: usize,
    pub kept: usize,
    pub time: Duration,
}

/// A script on which the sides differ, as short as it could be made.
pub struct Found {
    pub items: Vec<Item>,
    pub difference: Difference,
}

/// Says how far it is, at most so often.
const PROGRESS: Duration = Duration::from_secs(5);

pub fn hunt(limits: &Limits, given: Vec<Vec<Item>>, start: Start) -> (Played, Option<Found>) {
    let mut random = Random::new(limits.seed);
    let mut corpus = Corpus::new(&mut random, given);
    let mut seen = Seen::default();
    let mut played = Played::default();
    let begin = Instant::now();
    let mut told = begin;
    let end = limits
        .seconds
        .map(|seconds| begin + Duration::from_secs(seconds));
    while played.calls < limits.calls && end.is_none_or(|end| Instant::now() < end) {
        let mut items = corpus.pick(&mut random);
        mutate(&mut items, &corpus, &mut random);
        let one = duel(&items, start, &mut seen);
        played.calls += one.calls;
        played.answered += one.answered;
        played.scripts += 1;
        played.tuples = seen.count();
        played.time = begin.elapsed();
        if let Some(difference) = one.difference {
            items.truncate(difference.at + 1);
            return (played, Some(found(items, difference, start)));
        }
        if one.new {
            corpus.keep(&mut random, items);
            played.kept += 1;
        }
        if told.elapsed() >= PROGRESS {
            eprintln!(
                "fuzz: {}, {} scripts in hand",
                played.words(),
                corpus.size()
            );
            told = Instant::now();
        }
    }
    (played, None)
}

/// The script made short, and how the sides differ on that one.
fn found(items: Vec<Item>, difference: Difference, start: Start) -> Found {
    let items = minimise(items, start);
    let last = duel(&items, start, &mut Seen::default()).difference;
    let difference = last.unwrap_or(difference);
    Found { items, difference }
}

impl Found {
    pub fn script(&self) -> Vec<u8> {
        self.items.iter().flat_map(Item::to_bytes).collect()
    }
}

impl Played {
    pub fn words(&self) -> String {
        format!(
            "{} calls ({} answered) of {} scripts, {} tuples, {:.0} s",
            self.calls,
            self.answered,
            self.scripts,
            self.tuples,
            self.time.as_secs_f64()
        )
    }
}

#[cfg(test)]
mod tests {
    use super::*;
    use crate::report;
    use crate::sides::{self, Archive, Side};
    use sdo::Player;

    const LIMITS: Limits = Limits {
        calls: 200_000,
        seconds: None,
        seed: 5,
    };

    /// The archive with one byte of one kind of answer spoilt: the code of a
    /// write to a read-only object.
    struct Spoilt(Archive);

    const READ_ONLY: [u8; 4] = [0x02, 0x00, 0x01, 0x06];

    impl Side for Spoilt {
        fn play(&mut self, item: &Item) -> Option<Vec<u8>> {
            let mut call = self.0.play(item)?;
            if call[0] == 0 && call.get(23..27) == Some(&READ_ONLY) {
                call[23] ^= 1;
            }
            Some(call)
        }
    }

    #[test]
    fn a_spoilt_byte_is_found_and_the_script_is_short() {
        let start = || {
            let archive: Box<dyn Side> = Box::new(Spoilt(Archive(Player::new())));
            (sides::start().0, archive)
        };
        let (_, found) = hunt(&LIMITS, Vec::new(), &start);
        let found = found.expect("the spoilt byte is found");
        // An image, a connection and a write at most.
        assert!(found.items.len() <= 4, "{:?}", found.items);
        let words = report::words(&found).unwrap();
        for part in ["call ", "06010002", "06010003"] {
            assert!(words.contains(part), "{words}");
        }
    }

    /// The archive that falls over at the first tick that answers.
    struct Falls(Archive);

    impl Side for Falls {
        fn play(&mut self, item: &Item) -> Option<Vec<u8>> {
            let call = self.0.play(item)?;
            assert!(!matches!(item, Item::Tick { .. }) || call[0] != 0, "fell");
            Some(call)
        }
    }

    #[test]
    fn a_side_that_panics_is_a_difference() {
        let start = || {
            let archive: Box<dyn Side> = Box::new(Falls(Archive(Player::new())));
            (sides::start().0, archive)
        };
        let (_, found) = hunt(&LIMITS, Vec::new(), &start);
        let found = found.expect("a tick answers");
        assert!(report::words(&found)
            .unwrap()
            .contains("the archive panicked: fell"));
        assert!(matches!(found.items.last(), Some(Item::Tick { .. })));
    }

    #[test]
    fn the_sides_agree_and_the_same_seed_plays_the_same() {
        let limits = Limits {
            calls: 5_000,
            ..LIMITS
        };
        let runs = [0, 1].map(|_| hunt(&limits, Vec::new(), &sides::start));
        let figures = runs.map(|(played, found)| {
            assert!(found.is_none());
            (played.calls, played.scripts, played.tuples)
        });
        assert_eq!(figures[0], figures[1]);
        assert!(figures[0].2 > 100, "{figures:?}");
    }
}
