//! What a tick met.

use super::{Before, Watch};
use crate::replay::bench::Outcome;
use crate::replay::record::{Record, State};
use crate::sdo::server::SdoClientInfo;

fn deadline(record: &Record) -> Option<u64> {
    match &record.state {
        State::Upload(transfer) | State::Download(transfer) => transfer.deadline,
        _ => None,
    }
}

impl Watch {
    pub fn tick(&mut self, clock: u64, before: &Before, outcome: Outcome) {
        self.counts.items.add("ticks");
        if let Outcome::Refused(number) = outcome {
            return self.counts.refusals.add(&format!("{number} tick"));
        }
        self.about_deadline(clock, before);
        let answered = match outcome {
            Outcome::Answer { client, .. } => Some(client),
            _ => None,
        };
        if let Some(client) = &answered {
            self.tick_answered(client, clock, before);
        } else {
            self.counts.ticks.add(match before.deadline {
                None => "nothing, no deadline there",
                Some(_) => "nothing, not due yet",
            });
        }
        self.tick_dropped(before, answered.as_ref());
    }

    fn about_deadline(&mut self, clock: u64, before: &Before) {
        let Some(deadline) = before.deadline else {
            return;
        };
        if clock == deadline {
            self.counts.ticks.add("clock exactly the earliest deadline");
        } else if clock.checked_add(1) == Some(deadline) {
            let row = "clock one before the earliest deadline";
            self.counts.ticks.add(row);
        } else if deadline.checked_add(1) == Some(clock) {
            let row = "clock one after the earliest deadline";
            self.counts.ticks.add(row);
        }
    }

    fn tick_answered(&mut self, client: &SdoClientInfo, clock: u64, before: &Before) {
        let is_due = |record: &&Record| deadline(record).is_some_and(|time| clock >= time);
        let used = before.table.iter().filter(|record| record.used);
        if used.filter(is_due).count() > 1 {
            self.counts.ticks.add("several due, the first answered");
        }
        let record = before.record(client).expect("it was due");
        match &record.state {
            State::Upload(transfer) if transfer.retries > 0 => {
                self.counts.ticks.add("answered by a resend");
                self.follow.upload(*client, transfer).resends += 1;
            }
            State::Upload(transfer) => {
                self.counts.ticks.add("answered by an abort, upload");
                self.timed_out("upload");
                let resends = self.follow.upload(*client, transfer).resends;
                self.counts.upload_ends.add(match resends {
                    0 => "timed out without a resend",
                    1 => "timed out after 1 resend",
                    _ => "timed out after 2 or more resends",
                });
                self.follow.end(client);
            }
            _ => {
                self.counts.ticks.add("answered by an abort, download");
                self.counts.downloads.add("timed out");
                self.timed_out("download");
            }
        }
    }

    fn timed_out(&mut self, transfer: &str) {
        self.counts.codes.add("05040000");
        let place = format!("05040000 tick, {transfer}");
        self.counts.causes.add(&place);
    }

    fn tick_dropped(&mut self, before: &Before, answered: Option<&SdoClientInfo>) {
        let used = before.table.iter().filter(|record| record.used);
        let gone: Vec<&Record> = used
            .filter(|record| self.bench.record(&record.client).is_none())
            .collect();
        let own = gone.iter().any(|record| Some(&record.client) == answered);
        let others = gone.len() - own as usize;
        if own {
            self.counts.dropped.add("by a tick, its own abort");
        }
        self.counts.dropped.add(match others {
            0 => "by a tick, none",
            1 => "by a tick, one",
            2 => "by a tick, two",
            _ => "by a tick, three or more",
        });
        if answered.is_some() && others > 0 {
            let row = "answered while another record was dropped";
            self.counts.ticks.add(row);
        }
    }
}
