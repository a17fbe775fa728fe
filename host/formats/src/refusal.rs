//! The numbers that a call is refused with, in document 01's words.

use std::fmt;

#[derive(Debug, Clone, Copy, PartialEq, Eq, Hash, PartialOrd, Ord)]
#[repr(u8)]
pub enum Refusal {
    Lengths = 1,
    Image = 2,
    Table = 3,
    Clock = 4,
    ShortRequest = 5,
    LongRequest = 6,
    NoRoom = 7,
    Sequence = 8,
    Empty = 9,
}

impl Refusal {
    pub const ALL: [Refusal; 9] = [
        Refusal::Lengths,
        Refusal::Image,
        Refusal::Table,
        Refusal::Clock,
        Refusal::ShortRequest,
        Refusal::LongRequest,
        Refusal::NoRoom,
        Refusal::Sequence,
        Refusal::Empty,
    ];

    pub fn number(self) -> u8 {
        self as u8
    }

    pub fn from_number(number: u64) -> Option<Refusal> {
        Refusal::ALL
            .into_iter()
            .find(|refusal| u64::from(refusal.number()) == number)
    }

    /// What it means.
    pub fn words(self) -> &'static str {
        match self {
            Refusal::Lengths => {
                "answer buffer under 1,468 bytes, area not 65,536 bytes, or table not eight records"
            }
            Refusal::Image => "the dictionary image is not sound",
            Refusal::Table => "the connection table is not sound",
            Refusal::Clock => "the clock is above 2^63 - 1",
            Refusal::ShortRequest => "the request has under 4 bytes",
            Refusal::LongRequest => "the request has more than 1,500 bytes",
            Refusal::NoRoom => "eight clients are connected, and this is none of them",
            Refusal::Sequence => "wrong sequence number or mark for the connection's state",
            Refusal::Empty => "an empty command that the connection's state has no use for",
        }
    }
}

impl fmt::Display for Refusal {
    fn fmt(&self, f: &mut fmt::Formatter) -> fmt::Result {
        write!(f, "{}: {}", self.number(), self.words())
    }
}

impl std::error::Error for Refusal {}
