//! What is spoilt on the line, by the count of frames.

use formats::random::Random;
use std::time::Duration;

/// What becomes of a frame of ours.
#[derive(Debug, Clone, Copy, PartialEq, Eq)]
pub enum Fate {
    Sent,
    Lost,
    Twice,
    Late(Duration),
}

/// Frames are counted from 1.
pub struct Faults {
    pub answers_lost: Vec<u64>,
    pub sent_lost: Vec<u64>,
    pub repeated: Vec<u64>,
    pub delayed: Vec<u64>,
    pub delay: Duration,
    /// How many of 100 frames are lost, both ways.
    pub rate: u8,
    random: Random,
}

impl Default for Faults {
    fn default() -> Faults {
        Faults {
            answers_lost: Vec::new(),
            sent_lost: Vec::new(),
            repeated: Vec::new(),
            delayed: Vec::new(),
            delay: Duration::ZERO,
            rate: 0,
            random: Random::new(1),
        }
    }
}

impl Faults {
    /// Which frames are lost by the rate follows from the seed alone.
    pub fn seed(&mut self, seed: u64) {
        self.random = Random::new(seed);
    }

    pub fn fate(&mut self, count: u64) -> Fate {
        if self.sent_lost.contains(&count) || self.strikes() {
            Fate::Lost
        } else if self.repeated.contains(&count) {
            Fate::Twice
        } else if self.delayed.contains(&count) {
            Fate::Late(self.delay)
        } else {
            Fate::Sent
        }
    }

    pub fn loses_answer(&mut self, count: u64) -> bool {
        self.answers_lost.contains(&count) || self.strikes()
    }

    fn strikes(&mut self) -> bool {
        self.rate > 0 && self.random.below(100) < self.rate.into()
    }
}

#[cfg(test)]
mod tests {
    use super::*;

    #[test]
    fn the_rate_is_about_what_is_asked() {
        for rate in [0, 1, 20, 100] {
            let mut faults = Faults {
                rate,
                ..Faults::default()
            };
            let lost = (1..=10_000).filter(|&at| faults.loses_answer(at)).count();
            let due = usize::from(rate) * 100;
            assert!(lost.abs_diff(due) <= 200, "{rate}: {lost}");
        }
    }

    #[test]
    fn named_frames_are_spoilt() {
        let mut faults = Faults {
            sent_lost: vec![1],
            repeated: vec![2],
            delayed: vec![3],
            answers_lost: vec![2],
            ..Faults::default()
        };
        let late = Fate::Late(Duration::ZERO);
        for (count, fate) in (1..).zip([Fate::Lost, Fate::Twice, late, Fate::Sent]) {
            assert_eq!(faults.fate(count), fate);
            assert_eq!(faults.loses_answer(count), count == 2);
        }
    }
}
