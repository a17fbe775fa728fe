//! What a request met.

use super::counts::{LAST, NEXT, OTHER, OURS};
use super::{Before, Watch};
use crate::replay::bench::Outcome;
use crate::replay::head::Head;
use crate::replay::record::{FIRST_RECEIVE, FIRST_SEND, Record, State, Transfer};
use crate::replay::words;
use crate::sdo::command::SdoCommand;
use crate::sdo::server::SdoClientInfo;

/// A request past the refusals 1 to 7, and what it met.
pub struct Met<'a> {
    pub client: SdoClientInfo,
    pub head: Head,
    pub body: &'a [u8],
    pub before: &'a Before,
    pub record: Option<&'a Record>,
    pub state: &'static str,
}

impl Met<'_> {
    pub fn upload(&self) -> Option<&Transfer> {
        match &self.record?.state {
            State::Upload(transfer) => Some(transfer),
            _ => None,
        }
    }

    pub fn download(&self) -> Option<&Transfer> {
        match &self.record?.state {
            State::Download(transfer) => Some(transfer),
            _ => None,
        }
    }
}

impl Watch {
    pub fn request(
        &mut self,
        client: &SdoClientInfo,
        bytes: &[u8],
        before: &Before,
        outcome: Outcome,
    ) {
        self.counts.items.add("requests");
        if let Outcome::Refused(number) = outcome {
            self.refused(number, before);
        }
        if matches!(outcome, Outcome::Refused(1..=7)) {
            return;
        }
        let record = before.record(client);
        let met = Met {
            client: *client,
            head: Head::read(bytes).expect("refused with 5 otherwise"),
            body: &bytes[4..],
            before,
            record,
            state: words::state(record),
        };
        self.frame(&met);
        self.record_moves(&met);
        match outcome {
            Outcome::Refused(number) => self.refused_frame(number, &met),
            Outcome::Answer { length, .. } => {
                let answer = self.bench.answer()[4..length].to_vec();
                let answer = SdoCommand::deserialize(&answer).expect("the Rust wrote it");
                self.answered(&met, &answer);
            }
            _ => unreachable!("a request is refused or answered"),
        }
    }

    fn refused(&mut self, number: u8, before: &Before) {
        let closed = |record: &Record| matches!(record.state, State::Closed);
        let row = match number {
            7 if before.table.iter().any(closed) => "7 request, a Closed record among the eight",
            7 => "7 request, no Closed record among the eight",
            _ => &format!("{number} request"),
        };
        self.counts.refusals.add(row);
    }

    fn frame(&mut self, met: &Met) {
        let Head {
            receive,
            receive_mark,
            send,
            send_mark,
        } = met.head;
        let receive_mark = words::RECEIVE_MARKS[receive_mark as usize];
        let row = format!("{}, receive {receive_mark}", met.state);
        let send_mark = words::SEND_MARKS[send_mark as usize];
        self.counts.marks.add_at(&row, send_mark);

        let last = met.record.map_or(FIRST_RECEIVE, |record| record.receive);
        let ours = met.record.map_or(FIRST_SEND, |record| record.send);
        let number = match send {
            _ if send == last => LAST,
            _ if send == last.wrapping_add(1) % 64 => NEXT,
            _ => OTHER,
        };
        self.counts.numbers.add_at(met.state, number);
        let receive = if receive == ours { OURS } else { OTHER };
        self.counts.acknowledged.add_at(met.state, receive);

        let kind = match SdoCommand::deserialize(met.body) {
            _ if met.body.is_empty() => "empty",
            Err(_) => "undecodable",
            Ok(command) if command.header.is_aborted => "aborted bit",
            Ok(_) => "command",
        };
        self.counts.commands.add_at(met.state, kind);
    }

    /// Joining, leaving, and numbers that begin again.
    fn record_moves(&mut self, met: &Met) {
        let after = self.bench.record(&met.client).copied();
        if met.record.is_none() {
            self.counts.joins.add("a client joins");
            if met.before.used() == 7 {
                self.counts.joins.add("a client joins as the eighth");
            }
        } else if met.before.used() == 8 {
            self.counts.joins.add("eight used, request of one of them");
        }
        let Some(after) = after else {
            self.counts.dropped.add("by a request");
            if met.record.is_none() {
                let row = "a client joins and is dropped in one call";
                self.counts.joins.add(row);
            }
            return;
        };
        let Some(before) = met.record else {
            return;
        };
        if (before.receive, after.receive) == (63, 0) {
            self.counts.joins.add("receive number passes 63");
        }
        if (before.send, after.send) == (63, 0) {
            self.counts.joins.add("send number passes 63");
        }
    }

    fn refused_frame(&mut self, number: u8, met: &Met) {
        self.counts
            .refused_frames
            .add(&format!("{number} {}", met.state));
        if let (9, Some(transfer)) = (number, met.upload()) {
            let after = self.bench.record(&met.client);
            let kept = match after.map(|record| record.state) {
                Some(State::Upload(transfer)) => transfer.stored,
                _ => false,
            };
            self.counts.uploads.add(match (transfer.stored, kept) {
                (true, true) => "refused with 9, piece kept",
                (true, false) => "refused with 9, piece acknowledged",
                _ => "refused with 9, no piece stored",
            });
        }
    }

    fn answered(&mut self, met: &Met, answer: &SdoCommand) {
        if met.head.receive_mark == 3 {
            return self.error_response(met);
        }
        if met.body.is_empty() {
            return self.empty_frame(met, answer);
        }
        let Ok(command) = SdoCommand::deserialize(met.body) else {
            if met.download().is_some() {
                self.counts.downloads.add("undecodable command");
            }
            return self.aborted(met, answer, "undecodable");
        };
        if command.header.is_aborted {
            self.aborted_bit(met);
        } else if met.upload().is_some() {
            self.in_upload(met, &command, answer);
        } else {
            self.dispatched(met, &command, answer);
        }
    }

    fn error_response(&mut self, met: &Met) {
        if met.download().is_some() {
            self.counts.downloads.add("empty frame or error response");
        }
        let row = match met.upload() {
            Some(transfer) if transfer.stored => {
                let upload = self.follow.upload(met.client, transfer);
                upload.resends += 1;
                match upload.resends {
                    1 => "upload, resent",
                    _ => "upload, resent again",
                }
            }
            Some(_) => "upload without stored piece, Nil",
            None => &format!("{}, Nil", met.state),
        };
        self.counts.error_responses.add(row);
    }

    fn empty_frame(&mut self, met: &Met, answer: &SdoCommand) {
        let closed = matches!(met.state, "no record" | "Closed");
        let row = match met.state {
            _ if closed && met.head.send_mark == 1 => "handshake begins",
            _ if closed => "under marks 0",
            "upload" => "advances",
            "download" => "stays",
            _ => "closes",
        };
        let row = format!("{}, {row}", met.state);
        self.counts.empty_frames.add(&row);
        if met.upload().is_some() {
            self.advanced(met, answer, "advanced by an empty frame");
        } else if met.download().is_some() {
            self.counts.downloads.add("empty frame or error response");
        }
    }

    /// An answer with an abort code; `place` says where it comes from.
    pub fn aborted(&mut self, met: &Met, answer: &SdoCommand, place: &str) {
        let code = words::abort_code(&answer.payload).expect("the Rust wrote it");
        let code = format!("{code:08X}");
        self.counts.codes.add(&code);
        self.counts.causes.add(&format!("{code} {place}"));
        if met.upload().is_some() {
            self.counts.upload_ends.add(match place {
                "undecodable" => "aborted by an undecodable command",
                _ => "aborted by a command",
            });
            self.follow.end(&met.client);
        }
    }

    fn aborted_bit(&mut self, met: &Met) {
        self.counts
            .codes
            .add("no code: the answer to an aborted bit");
        self.counts.answers.add("aborted bit");
        if met.upload().is_some() {
            self.counts.upload_ends.add("closed by an aborted bit");
            self.follow.end(&met.client);
        } else if met.download().is_some() {
            self.counts.downloads.add("aborted bit");
        }
    }
}
