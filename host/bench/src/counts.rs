//! What has happened so far, in numbers.

use formats::refusal::Refusal;
use std::fmt;

#[derive(Debug, Clone, Default, PartialEq, Eq)]
pub struct Counts {
    pub clients: usize,
    pub requests: u64,
    pub answers: u64,
    /// By the refusal's number, from 1.
    refusals: [u64; Refusal::ALL.len()],
    pub uploads: u64,
    pub junk: u64,
    /// Answers that the network did not take.
    pub unsent: u64,
}

impl Counts {
    pub fn refused(&mut self, refusal: Refusal) {
        self.refusals[usize::from(refusal.number()) - 1] += 1;
    }

    /// The refusals that occurred, with their counts.
    pub fn refusals(&self) -> impl Iterator<Item = (Refusal, u64)> + '_ {
        let counted = Refusal::ALL.into_iter().zip(self.refusals);
        counted.filter(|&(_, count)| count > 0)
    }
}

impl fmt::Display for Counts {
    fn fmt(&self, f: &mut fmt::Formatter) -> fmt::Result {
        write!(
            f,
            "clients {}, requests {}, answers {}, refused",
            self.clients, self.requests, self.answers
        )?;
        match self.refusals.iter().sum::<u64>() {
            0 => write!(f, " 0")?,
            all => {
                write!(f, " {all} (")?;
                for (at, (refusal, count)) in self.refusals().enumerate() {
                    let comma = if at == 0 { "" } else { ", " };
                    write!(f, "{comma}{count} with {}", refusal.number())?;
                }
                write!(f, ")")?;
            }
        }
        write!(f, ", uploads finished {}, junk {}", self.uploads, self.junk)?;
        match self.unsent {
            0 => Ok(()),
            unsent => write!(f, ", not sent {unsent}"),
        }
    }
}

#[cfg(test)]
mod tests {
    use super::*;

    #[test]
    fn refusals_are_told_by_number() {
        let mut counts = Counts::default();
        assert!(counts.to_string().contains("refused 0, uploads"));
        for refusal in [Refusal::Sequence, Refusal::ShortRequest, Refusal::Sequence] {
            counts.refused(refusal);
        }
        assert!(counts
            .to_string()
            .contains("refused 3 (1 with 5, 2 with 8)"));
    }
}
