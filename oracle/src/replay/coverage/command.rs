//! What a decodable command without the aborted bit met: an upload, or
//! dispatch.

use super::Watch;
use super::request::Met;
use crate::od::image::{Entry, find};
use crate::replay::make::{RETRIES, TIMEOUT};
use crate::replay::record::{State, Transfer};
use crate::replay::state::PIECE;
use crate::replay::words;
use crate::sdo::command::{CommandId, SdoCommand, Segmentation};

/// The known ids, those within the domain of comparison first.
pub const IDS: [CommandId; 13] = [
    CommandId::Nil,
    CommandId::WriteByIndex,
    CommandId::ReadByIndex,
    CommandId::MaxSegmentSize,
    CommandId::Abort,
    CommandId::WriteAllByIndex,
    CommandId::ReadAllByIndex,
    CommandId::WriteByName,
    CommandId::ReadByName,
    CommandId::FileWrite,
    CommandId::FileRead,
    CommandId::WriteMultipleParamByIndex,
    CommandId::ReadMultipleParamByIndex,
];

impl Watch {
    pub fn in_upload(&mut self, met: &Met, command: &SdoCommand, answer: &SdoCommand) {
        let transfer = met.upload().expect("it runs");
        if !answer.header.is_aborted {
            let how = match command.header.command_id {
                CommandId::Nil => "advanced by a Nil command",
                _ => "advanced by a response",
            };
            return self.advanced(met, answer, how);
        }
        let place = match command.header.transaction_id == transfer.transaction {
            true => "upload, command of its transaction",
            false => "upload, other transaction",
        };
        self.aborted(met, answer, place);
    }

    pub fn advanced(&mut self, met: &Met, answer: &SdoCommand, how: &str) {
        let record = met.record.expect("it has one");
        let transfer = met.upload().expect("it runs");
        let uploads = &mut self.counts.uploads;
        uploads.add(how);
        let next = met.head.send != record.receive;
        uploads.add(match next {
            true => "advanced under the next number",
            false => "advanced under the last number",
        });
        if transfer.stored && !(next && met.head.receive == record.send) {
            uploads.add("advanced, piece not acknowledged");
        }
        let upload = *self.follow.upload(met.client, transfer);
        if answer.header.segmentation != Segmentation::Complete {
            return;
        }
        self.follow.end(&met.client);
        if !upload.begun {
            let row = "finished, begun in a lent table";
            return self.counts.upload_ends.add(row);
        }
        self.counts.upload_ends.add("finished");
        let row = format!("{} pieces", upload.pieces);
        let columns = [
            ("finished", true),
            ("after a resend", upload.resends > 0),
            ("object overwritten", upload.overwritten),
            ("other image lent", upload.other_image),
        ];
        for (column, _) in columns.iter().filter(|(_, met)| *met) {
            self.counts.pieces.add_at(&row, column);
        }
    }

    pub fn dispatched(&mut self, met: &Met, command: &SdoCommand, answer: &SdoCommand) {
        let header = &command.header;
        let id = format!("{:?}", header.command_id);
        let segmentation = format!("{:?}", header.segmentation);
        self.counts.dispatched.add_at(&id, &segmentation);
        let is_part = header.command_id == CommandId::WriteByIndex
            && matches!(
                header.segmentation,
                Segmentation::Segment | Segmentation::Complete
            );
        if met.download().is_some() && !is_part {
            self.counts.downloads.add("another command dispatched");
        }
        if answer.header.is_aborted {
            let place = place(met, command, answer);
            return self.aborted(met, answer, place);
        }
        match header.command_id {
            CommandId::Nil => self.counts.answers.add("Nil"),
            CommandId::MaxSegmentSize => self.counts.answers.add(match command.payload.len() {
                0 | 1 => "MaxSegmentSize without it",
                _ => "MaxSegmentSize with the client's size",
            }),
            CommandId::ReadByIndex => self.read(met, command, answer),
            CommandId::WriteByIndex => self.write(met, command),
            _ => unreachable!("the other ids abort"),
        }
    }

    fn read(&mut self, met: &Met, command: &SdoCommand, answer: &SdoCommand) {
        let key = key(&command.payload);
        let long = answer.header.command_id == CommandId::ReadByIndex;
        if self.follow.was_written(key) {
            self.counts.writes.add(match long {
                true => "read back, as an upload",
                false => "read back, expedited",
            });
        }
        if long {
            return self.begun(met);
        }
        self.counts.answers.add(match answer.payload.len() {
            0 => "read, 0 bytes",
            PIECE => "read, 1,452 bytes",
            _ => "read, 1 to 1,451 bytes",
        });
        if matches!(key.0, TIMEOUT | RETRIES) {
            self.counts.answers.add("read of 1300 or 1302");
        }
    }

    fn begun(&mut self, met: &Met) {
        let after = *self.bench.record(&met.client).expect("the upload runs");
        let State::Upload(transfer) = after.state else {
            unreachable!("the upload runs");
        };
        let upload = self.follow.begin(met.client, &transfer);
        self.follow.copy(after.area);
        let row = format!("{} pieces", upload.pieces);
        self.counts.pieces.add_at(&row, "begun");
        let image = self.bench.sound_image().expect("not refused with 2");
        let counts = |index| {
            let found = find(image, index, 0);
            found.is_some_and(|entry| entry.length == 4 && !entry.is_variable())
        };
        let (timeout, retries) = (counts(TIMEOUT), counts(RETRIES));
        let uploads = &mut self.counts.uploads;
        uploads.add(match met.state {
            "no record" | "Closed" => "begun by a Closed client",
            _ => "begun after a handshake",
        });
        uploads.add(match timeout {
            true => "begun with timeout from 1300",
            false => "begun with the default timeout",
        });
        uploads.add(match retries {
            true => "begun with retries from 1302",
            false => "begun with the default retries",
        });
    }

    /// An accepted write, or part of one.
    fn write(&mut self, met: &Met, command: &SdoCommand) {
        let length = command.payload.len();
        match (command.header.segmentation, met.download()) {
            (Segmentation::Expedited, _) => {
                self.written(met, key(&command.payload), length - 4, "Expedited");
            }
            (Segmentation::Initiate, _) => {
                self.counts.downloads.add("Initiate accepted");
                if length - 4 > command.data_size.unwrap_or(0) as usize {
                    let row = "Initiate accepted, its data beyond its total";
                    self.counts.downloads.add(row);
                }
                self.store_part(met);
            }
            (Segmentation::Segment, Some(transfer)) => {
                let whole = transfer.offset as usize + length == transfer.total as usize;
                self.counts.downloads.add(match whole {
                    true => "Segment stored, to the total",
                    false => "Segment stored, below total",
                });
                self.store_part(met);
            }
            (Segmentation::Complete, Some(transfer)) => {
                self.counts.downloads.add("Complete stored");
                if length == 0 {
                    self.counts.downloads.add("Complete of no data");
                }
                let share = met.record.expect("it has one").area;
                if self.follow.has_part(share) {
                    let row = "Complete stored after an earlier part of this share";
                    self.counts.downloads.add(row);
                }
                let key = (transfer.index, transfer.sub_index);
                self.written(met, key, transfer.total as usize, "Complete");
            }
            _ => unreachable!("no download running: aborted"),
        }
    }

    /// A joining client takes the first unused record's share.
    fn store_part(&mut self, met: &Met) {
        let mut unused = met.before.table.iter().filter(|record| !record.used);
        let record = met.record.or_else(|| unused.next());
        self.follow.store_part(record.expect("there is room").area);
    }

    fn written(&mut self, met: &Met, key: (u16, u8), length: usize, how: &str) {
        let image = self.bench.sound_image().expect("not refused with 2");
        let entry = find(image, key.0, key.1).expect("it was written");
        let before = find(&met.before.image, key.0, key.1);
        let writes = &mut self.counts.writes;
        writes.add(&format!("{how}, {} entry", kind(&entry)));
        if before.is_some_and(|entry| entry.length != length) {
            writes.add("length changed");
        }
        if self.bench.image_sum() != met.before.image_sum {
            writes.add("image changed");
        }
        if matches!(key.0, TIMEOUT | RETRIES) {
            writes.add("1300 or 1302 written");
        }
        if self.follow.write(&met.client, key) {
            let row = "object of another client's upload overwritten";
            self.counts.writes.add(row);
        }
    }
}

fn kind(entry: &Entry) -> &'static str {
    match entry.is_variable() {
        true => "variable",
        false => "fixed",
    }
}

/// Index and sub-index at a payload's begin.
fn key(payload: &[u8]) -> (u16, u8) {
    (u16::from_le_bytes([payload[0], payload[1]]), payload[2])
}

/// Where a dispatched command's abort comes from, as the causes name it.
fn place(met: &Met, command: &SdoCommand, answer: &SdoCommand) -> &'static str {
    let header = &command.header;
    let short = command.payload.len() < 4;
    let total = command.data_size.unwrap_or(0);
    match header.command_id {
        CommandId::Abort => "Abort",
        CommandId::ReadByIndex if short => "read, under 4 payload bytes",
        CommandId::ReadByIndex => "read",
        CommandId::WriteByIndex => match (header.segmentation, met.download()) {
            (Segmentation::Expedited, _) if short => "Expedited write, under 4 payload bytes",
            (Segmentation::Expedited, _) => "Expedited write",
            (Segmentation::Initiate, _) if short => "Initiate write, under 4 payload bytes",
            (Segmentation::Initiate, _) if total == 0 => "Initiate write, total 0",
            (Segmentation::Initiate, _) => "Initiate write, total above 8,192",
            (Segmentation::Segment, None) => "Segment, no download running",
            (Segmentation::Complete, None) => "Complete, no download running",
            (_, Some(transfer)) => part_place(transfer, command, answer),
        },
        _ => "other known id",
    }
}

fn part_place(transfer: &Transfer, command: &SdoCommand, answer: &SdoCommand) -> &'static str {
    let end = transfer.offset as usize + command.payload.len();
    let total = transfer.total as usize;
    let complete = command.header.segmentation == Segmentation::Complete;
    match words::abort_code(&answer.payload) {
        _ if command.header.transaction_id != transfer.transaction => "download, other transaction",
        _ if end > total && complete => "Complete beyond total",
        _ if end > total => "Segment beyond total",
        _ if end < total => "Complete below total",
        Some(0x0607_0010) => "Complete, value does not fit",
        Some(0x0607_0013) => "Complete, value too short",
        _ => "Complete",
    }
}
