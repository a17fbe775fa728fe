//! What is measured: a few calls each, from a state that other calls bring.

use formats::dictionary::{self, Entry};
use formats::frame::{Command, Frame, Header, ReceiveMark, SendMark};
use formats::object::Object;

/// A call of one of eight clients.
#[derive(Clone)]
pub enum Call {
    Request { client: u8, bytes: Vec<u8> },
    Tick,
    Query,
}

/// The clock of every call: no deadline has passed.
pub const CLOCK: u64 = 1_000_000;

/// How many clients can be connected.
const CLIENTS: u8 = 8;

const SMALL: Object = Object {
    index: 0x2001,
    sub: 1,
};
const LARGE: Object = Object {
    index: 0x2110,
    sub: 0,
};
const LARGE_SIZE: u16 = 4_096;
const PIECES: u8 = 3;
const TRANSACTION: u8 = 7;

pub struct Case {
    /// What is measured, and at how many entries.
    pub what: &'static str,
    pub entries: usize,
    /// Brings the state; not measured.
    pub setup: Vec<Call>,
    pub measured: Vec<Call>,
}

impl Case {
    pub fn name(&self) -> String {
        format!("{}-{}", self.what, self.entries)
    }
}

/// How many entries the images have.
pub const ENTRIES: [usize; 2] = [50, 4_500];

pub fn all() -> Vec<Case> {
    // At an image without entries a tick does its work on the table and little
    // else.
    let coding = Case {
        what: "tick-0",
        entries: 0,
        setup: Vec::new(),
        measured: vec![Call::Tick],
    };
    let mut cases: Vec<Case> = ENTRIES.into_iter().flat_map(at_entries).collect();
    cases.push(coding);
    cases
}

fn at_entries(entries: usize) -> Vec<Case> {
    let begun = |pieces| [vec![handshake(0)], upload(0, 0, pieces)].concat();
    let crowd: Vec<Call> = (0..CLIENTS)
        .flat_map(|client| [handshake(client), read(client, LARGE)])
        .collect();
    let case = |what, setup: &[Call], measured| Case {
        what,
        entries,
        setup: setup.to_vec(),
        measured,
    };
    vec![
        case("handshake", &[], vec![handshake(0)]),
        case("expedited-read", &begun(0), vec![read(0, SMALL)]),
        case("upload", &begun(0), upload(0, 0, PIECES)),
        case("upload-initiate", &begun(0), upload(0, 0, 1)),
        case("upload-segment", &begun(1), upload(0, 1, 2)),
        case("upload-complete", &begun(2), upload(0, 2, PIECES)),
        case("tick-0", &[], vec![Call::Tick]),
        case("tick-8", &crowd, vec![Call::Tick]),
        case("query-0", &[], vec![Call::Query]),
        case("query-8", &crowd, vec![Call::Query]),
    ]
}

fn handshake(client: u8) -> Call {
    let bytes = vec![0, 1, 0, 0];
    Call::Request { client, bytes }
}

/// A read as the first frame after the handshake.
fn read(client: u8, object: Object) -> Call {
    frame(client, 0, Some(Command::read(TRANSACTION, object)))
}

/// The frames of an upload that ask for the pieces `from` to `to`.
fn upload(client: u8, from: u8, to: u8) -> Vec<Call> {
    (from..to)
        .map(|piece| match piece {
            0 => read(client, LARGE),
            _ => frame(client, piece, None),
        })
        .collect()
}

/// A client's frame number so many after the handshake, both marks valid.
fn frame(client: u8, number: u8, command: Option<Command>) -> Call {
    let header = Header {
        receive: number,
        receive_mark: ReceiveMark::Valid,
        send: number + 1,
        send_mark: SendMark::Valid,
    };
    let bytes = Frame { header, command }.to_bytes();
    Call::Request { client, bytes }
}

/// An image of so many entries: the two that are read, timeout and retries,
/// and others of one byte on both sides of them; or none.
pub fn image(entries: usize) -> Result<Vec<u8>, String> {
    let list = if entries == 0 {
        Vec::new()
    } else {
        filled(entries)
    };
    dictionary::encode(&list).map_err(|unsound| unsound.to_string())
}

fn filled(entries: usize) -> Vec<Entry> {
    let fixed = |index, sub, value: Vec<u8>| Entry {
        object: Object { index, sub },
        variable: false,
        read_only: false,
        capacity: value.len() as u16,
        value,
    };
    let large = (0..LARGE_SIZE).map(|at| (at / 256 + at * 7) as u8);
    let mut list = vec![
        fixed(0x1300, 0, 15_000_u32.to_le_bytes().to_vec()),
        fixed(0x1302, 0, 2_u32.to_le_bytes().to_vec()),
        fixed(SMALL.index, SMALL.sub, vec![0x34, 0x12]),
        fixed(LARGE.index, LARGE.sub, large.collect()),
    ];
    let others = entries - list.len();
    list.extend((0..others).map(|at| {
        let base = if at < others / 2 { 0x1000 } else { 0x3000 };
        let (index, sub) = (base + (at / 200) as u16, (at % 200) as u8);
        fixed(index, sub, vec![at as u8])
    }));
    list.sort_by_key(|entry| entry.object);
    list
}
