//! The four that are measured, each with states of its own.

use crate::archive::Archive;
use crate::cases::Case;
use crate::rust::{Bare, Checked, Coded};

/// A contestant with a case's setup played on several copies.
pub trait Prepared {
    /// Makes the measured calls on each copy.
    fn play(&mut self);

    /// The last answer's bytes, as far as the buffer is.
    #[cfg(test)]
    fn answer(&self) -> &[u8];
}

#[derive(Clone, Copy, PartialEq, Eq)]
pub enum Contestant {
    Archive,
    Bare,
    Checked,
    Coded,
}

impl Contestant {
    pub const COUNT: usize = 4;
    pub const ALL: [Contestant; Self::COUNT] = [
        Contestant::Archive,
        Contestant::Bare,
        Contestant::Checked,
        Contestant::Coded,
    ];

    pub fn name(self) -> &'static str {
        match self {
            Contestant::Archive => "archive",
            Contestant::Bare => "bare",
            Contestant::Checked => "checked",
            Contestant::Coded => "coded",
        }
    }

    pub fn named(name: &str) -> Option<Contestant> {
        Self::ALL.into_iter().find(|one| one.name() == name)
    }

    pub fn prepare(self, case: &Case, image: &[u8], copies: usize) -> Box<dyn Prepared> {
        match self {
            Contestant::Archive => Box::new(Archive::new(case, image, copies)),
            Contestant::Bare => Box::new(Bare::new(case, image, copies)),
            Contestant::Checked => Box::new(Checked::new(case, image, copies)),
            Contestant::Coded => Box::new(Coded::new(case, image, copies)),
        }
    }
}

/// Everything that is measured happens in here.
#[inline(never)]
pub fn measured(prepared: &mut dyn Prepared) {
    prepared.play();
}

#[cfg(test)]
mod tests {
    use super::*;
    use crate::cases;

    #[test]
    fn all_answer_alike() {
        for case in cases::all() {
            let image = cases::image(case.entries).unwrap();
            let answers = Contestant::ALL.map(|contestant| {
                let mut prepared = contestant.prepare(&case, &image, 2);
                measured(prepared.as_mut());
                prepared.answer().to_vec()
            });
            for (contestant, answer) in Contestant::ALL.into_iter().zip(&answers) {
                assert_eq!(
                    *answer,
                    answers[0],
                    "{}: {}",
                    case.name(),
                    contestant.name()
                );
            }
        }
    }

    #[test]
    fn the_upload_is_three_pieces_and_ends() {
        let cases = cases::all();
        let segmentation = |what| {
            let case = cases.iter().find(|case| case.what == what).unwrap();
            let image = cases::image(case.entries).unwrap();
            let mut prepared = Contestant::Archive.prepare(case, &image, 1);
            measured(prepared.as_mut());
            prepared.answer()[6] >> 6
        };
        let pieces = ["upload-initiate", "upload-segment", "upload-complete"];
        assert_eq!(pieces.map(segmentation), [1, 2, 3]);
        assert_eq!(segmentation("upload"), 3);
        assert_eq!(segmentation("expedited-read"), 0);
    }
}
