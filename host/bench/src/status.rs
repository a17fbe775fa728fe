//! The status line: renewed in place on a terminal, else a line now and then.

use crate::counts::Counts;
use std::io::{self, IsTerminal, Write};
use std::time::{Duration, Instant};

const ON_TERMINAL: Duration = Duration::from_millis(500);
const ELSEWHERE: Duration = Duration::from_secs(10);

pub struct Status {
    terminal: bool,
    shown: Option<Counts>,
    next: Instant,
}

impl Status {
    pub fn new() -> Status {
        let terminal = io::stderr().is_terminal();
        Status {
            terminal,
            shown: (!terminal).then(Counts::default),
            next: Instant::now(),
        }
    }

    /// Shows the counts if it is time to and they have changed.
    pub fn show(&mut self, counts: &Counts) {
        let now = Instant::now();
        if now < self.next {
            return;
        }
        self.next = now
            + if self.terminal {
                ON_TERMINAL
            } else {
                ELSEWHERE
            };
        if self.shown.as_ref() == Some(counts) {
            return;
        }
        let mut out = io::stderr().lock();
        // A status that cannot be written is no reason to end.
        let _ = match self.terminal {
            true => write!(out, "\r\x1b[K{counts}").and_then(|()| out.flush()),
            false => writeln!(out, "bench: {counts}"),
        };
        self.shown = Some(counts.clone());
    }

    /// Leaves the line that is renewed in place.
    pub fn end(&self) {
        if self.terminal {
            eprintln!();
        }
    }
}
