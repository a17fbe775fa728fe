//! What is counted: every list and grid with its rows.

use std::io::{self, Write};

use super::grid::{Grid, number};
use crate::replay::words::{RECEIVE_MARKS, SEND_MARKS, STATES};

pub struct Counts {
    pub items: Grid,
    pub marks: Grid,
    pub numbers: Grid,
    pub acknowledged: Grid,
    pub commands: Grid,
    pub dispatched: Grid,
    pub refusals: Grid,
    pub refused_frames: Grid,
    pub codes: Grid,
    pub causes: Grid,
    pub error_responses: Grid,
    pub empty_frames: Grid,
    pub answers: Grid,
    pub writes: Grid,
    pub uploads: Grid,
    pub pieces: Grid,
    pub upload_ends: Grid,
    pub downloads: Grid,
    pub ticks: Grid,
    pub dropped: Grid,
    pub queries: Grid,
    pub used: Grid,
    pub joins: Grid,
    pub clocks: Grid,
}

pub const LAST: &str = "last";
pub const NEXT: &str = "next";
pub const OTHER: &str = "other";
pub const OURS: &str = "our send number";

/// The rows of `refusals`: who can be refused with what.
const REFUSALS: [&str; 16] = [
    "1 request",
    "1 tick",
    "1 query",
    "2 request",
    "2 tick",
    "3 request",
    "3 tick",
    "3 query",
    "4 request",
    "4 tick",
    "5 request",
    "6 request",
    "7 request, a Closed record among the eight",
    "7 request, no Closed record among the eight",
    "8 request",
    "9 request",
];

const REFUSED_FRAMES: [&str; 9] = [
    "8 Opening",
    "8 Established",
    "8 upload",
    "8 download",
    "9 no record",
    "9 Closed",
    "9 Established",
    "9 upload",
    "9 download",
];

/// Each code, with each of the places where document 01 has it.
const CAUSES: [&str; 30] = [
    "05040000 tick, upload",
    "05040000 tick, download",
    "05040001 undecodable",
    "05040001 read, under 4 payload bytes",
    "05040001 Expedited write, under 4 payload bytes",
    "05040001 Initiate write, under 4 payload bytes",
    "05040001 Abort",
    "05040001 other known id",
    "05040003 upload, command of its transaction",
    "05040003 Segment, no download running",
    "05040003 Complete, no download running",
    "05040005 Initiate write, total above 8,192",
    "06010002 Expedited write",
    "06010002 Complete",
    "06020000 read",
    "06020000 Expedited write",
    "06020000 Complete",
    "06070010 Expedited write",
    "06070010 Initiate write, total 0",
    "06070010 Segment beyond total",
    "06070010 Complete beyond total",
    "06070010 Complete, value does not fit",
    "06070013 Expedited write",
    "06070013 Complete below total",
    "06070013 Complete, value too short",
    "06090011 read",
    "06090011 Expedited write",
    "06090011 Complete",
    "08000000 upload, other transaction",
    "08000000 download, other transaction",
];

const CODES: [&str; 11] = [
    "05040000",
    "05040001",
    "05040003",
    "05040005",
    "06010002",
    "06020000",
    "06070010",
    "06070013",
    "06090011",
    "08000000",
    "no code: the answer to an aborted bit",
];

const ERROR_RESPONSES: [&str; 8] = [
    "upload, resent",
    "upload, resent again",
    "upload without stored piece, Nil",
    "no record, Nil",
    "Closed, Nil",
    "Opening, Nil",
    "Established, Nil",
    "download, Nil",
];

const EMPTY_FRAMES: [&str; 8] = [
    "no record, handshake begins",
    "Closed, handshake begins",
    "no record, under marks 0",
    "Closed, under marks 0",
    "Opening, closes",
    "Established, closes",
    "upload, advances",
    "download, stays",
];

const ANSWERS: [&str; 8] = [
    "read, 0 bytes",
    "read, 1 to 1,451 bytes",
    "read, 1,452 bytes",
    "read of 1300 or 1302",
    "MaxSegmentSize with the client's size",
    "MaxSegmentSize without it",
    "Nil",
    "aborted bit",
];

const WRITES: [&str; 10] = [
    "Expedited, fixed entry",
    "Expedited, variable entry",
    "Complete, fixed entry",
    "Complete, variable entry",
    "length changed",
    "image changed",
    "1300 or 1302 written",
    "read back, expedited",
    "read back, as an upload",
    "object of another client's upload overwritten",
];

const UPLOADS: [&str; 15] = [
    "begun after a handshake",
    "begun by a Closed client",
    "begun with timeout from 1300",
    "begun with the default timeout",
    "begun with retries from 1302",
    "begun with the default retries",
    "advanced by an empty frame",
    "advanced by a Nil command",
    "advanced by a response",
    "advanced under the next number",
    "advanced under the last number",
    "advanced, piece not acknowledged",
    "refused with 9, piece acknowledged",
    "refused with 9, piece kept",
    "refused with 9, no piece stored",
];

const PIECES: [&str; 5] = ["2 pieces", "3 pieces", "4 pieces", "5 pieces", "6 pieces"];
const PIECE_COLUMNS: [&str; 5] = [
    "begun",
    "finished",
    "after a resend",
    "object overwritten",
    "other image lent",
];

const UPLOAD_ENDS: [&str; 9] = [
    "finished",
    "finished, begun in a lent table",
    "aborted by a command",
    "aborted by an undecodable command",
    "closed by an aborted bit",
    "timed out without a resend",
    "timed out after 1 resend",
    "timed out after 2 or more resends",
    "replaced by a lent table",
];

const DOWNLOADS: [&str; 13] = [
    "Initiate accepted",
    "Initiate accepted, its data beyond its total",
    "lent",
    "Segment stored, below total",
    "Segment stored, to the total",
    "Complete stored",
    "Complete stored after an earlier part of this share",
    "Complete of no data",
    "another command dispatched",
    "undecodable command",
    "aborted bit",
    "empty frame or error response",
    "timed out",
];

const TICKS: [&str; 10] = [
    "answered by a resend",
    "answered by an abort, upload",
    "answered by an abort, download",
    "nothing, no deadline there",
    "nothing, not due yet",
    "clock one before the earliest deadline",
    "clock exactly the earliest deadline",
    "clock one after the earliest deadline",
    "several due, the first answered",
    "answered while another record was dropped",
];

const DROPPED: [&str; 6] = [
    "by a request",
    "by a tick, none",
    "by a tick, one",
    "by a tick, two",
    "by a tick, three or more",
    "by a tick, its own abort",
];

const JOINS: [&str; 6] = [
    "a client joins",
    "a client joins as the eighth",
    "a client joins and is dropped in one call",
    "eight used, request of one of them",
    "receive number passes 63",
    "send number passes 63",
];

const CLOCKS: [&str; 5] = [
    "set back",
    "the same as before",
    "later than before",
    "2^63 - 1",
    "above 2^63 - 1",
];

impl Counts {
    pub fn new() -> Self {
        let marks = STATES.iter().flat_map(|state| {
            let row = move |mark: &&str| format!("{state}, receive {mark}");
            RECEIVE_MARKS.iter().map(row)
        });
        Self {
            items: Grid::list(
                "Items",
                [
                    "requests",
                    "ticks",
                    "deadline queries",
                    "images lent, sound",
                    "images lent, not sound",
                    "tables lent, sound",
                    "tables lent, not sound",
                    "areas lent",
                    "lengths lent",
                ],
            ),
            marks: Grid::new(
                "Requests not refused with 1 to 7: record, receive mark; send mark",
                marks,
                SEND_MARKS,
            ),
            numbers: Grid::new(
                "Their send number, seen from the record (from 63 without one)",
                STATES,
                [LAST, NEXT, OTHER],
            ),
            acknowledged: Grid::new("Their receive number", STATES, [OURS, OTHER]),
            commands: Grid::new(
                "Their command",
                STATES,
                ["empty", "undecodable", "aborted bit", "command"],
            ),
            dispatched: Grid::new(
                "Commands at dispatch: id; segmentation",
                super::command::IDS.map(|id| format!("{id:?}")),
                ["Expedited", "Initiate", "Segment", "Complete"],
            ),
            refusals: Grid::list("Refusals", REFUSALS),
            refused_frames: Grid::list("Refusals 8 and 9 by record", REFUSED_FRAMES),
            codes: Grid::list("Abort codes in answers", CODES),
            causes: Grid::list("Abort codes by place", CAUSES),
            error_responses: Grid::list("Receive mark 3", ERROR_RESPONSES),
            empty_frames: Grid::list("Empty frames answered, receive mark not 3", EMPTY_FRAMES),
            answers: Grid::list("Expedited answers", ANSWERS),
            writes: Grid::list("Writes", WRITES),
            uploads: Grid::list("Uploads", UPLOADS),
            pieces: Grid::new(
                "Uploads by pieces (the last three columns: of the finished ones)",
                PIECES,
                PIECE_COLUMNS,
            ),
            upload_ends: Grid::list("Ends of uploads", UPLOAD_ENDS),
            downloads: Grid::list("Downloads", DOWNLOADS),
            ticks: Grid::list("Ticks", TICKS),
            dropped: Grid::list("Records dropped", DROPPED),
            queries: Grid::list("Deadline queries", ["a deadline", "nothing"]),
            used: Grid::list(
                "Used records when a call came (sound tables)",
                (0..=8).map(|n| n.to_string()),
            ),
            joins: Grid::list("Table and numbers", JOINS),
            clocks: Grid::list("Clocks of requests and ticks", CLOCKS),
        }
    }

    fn grids(&self) -> [&Grid; 24] {
        [
            &self.items,
            &self.marks,
            &self.numbers,
            &self.acknowledged,
            &self.commands,
            &self.dispatched,
            &self.refusals,
            &self.refused_frames,
            &self.codes,
            &self.causes,
            &self.error_responses,
            &self.empty_frames,
            &self.answers,
            &self.writes,
            &self.uploads,
            &self.pieces,
            &self.upload_ends,
            &self.downloads,
            &self.ticks,
            &self.dropped,
            &self.queries,
            &self.used,
            &self.joins,
            &self.clocks,
        ]
    }

    pub fn print(&self, out: &mut impl Write) -> io::Result<()> {
        for grid in self.grids() {
            grid.print(out)?;
        }
        let (mut cells, mut never) = (0, 0);
        for grid in self.grids() {
            cells += grid.cells().0;
            never += grid.cells().1;
        }
        let (cells, met) = (number(cells as u64), number((cells - never) as u64));
        writeln!(out, "\nMet: {met} of {cells} counts; never: {never}.")
    }
}
