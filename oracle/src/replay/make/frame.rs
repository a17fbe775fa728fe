//! Requests for scripts: the one that the client's record awaits, or one with
//! something else about it.

use super::command::{self, ABORTED, Command, RESPONSE};
use crate::replay::bench::{Bench, REQUEST};
use crate::replay::head::Head;
use crate::replay::record::{FIRST_RECEIVE, FIRST_SEND, Record, State};
use crate::rng::Rng;
use crate::sdo::server::SdoClientInfo;

impl Head {
    /// What a client with this record, or none, would send next.
    pub fn awaited(record: Option<&Record>) -> Self {
        let (receive, last, state) = match record {
            Some(record) => (record.send, record.receive, &record.state),
            None => (FIRST_SEND, FIRST_RECEIVE, &State::Closed),
        };
        match state {
            State::Closed => Self {
                receive: 0,
                receive_mark: 0,
                send: last.wrapping_add(1) % 64,
                send_mark: 1,
            },
            _ => Self {
                receive: receive % 64,
                receive_mark: 2,
                send: last.wrapping_add(1) % 64,
                send_mark: 2,
            },
        }
    }
}

/// What a request is made from.
pub struct Scene<'a> {
    pub record: Option<&'a Record>,
    pub sound_image: Option<&'a [u8]>,
    /// Something else about one request in so many.
    pub noise: usize,
    /// Whether commands outside the domain of comparison may come.
    pub strange: bool,
}

impl<'a> Scene<'a> {
    /// Where this client stands, with nothing wrong or strange.
    pub fn of(bench: &'a Bench, client: &SdoClientInfo) -> Self {
        Self {
            record: bench.record(client),
            sound_image: bench.sound_image(),
            noise: usize::MAX,
            strange: false,
        }
    }
}

pub fn request(rng: &mut Rng, scene: &Scene) -> Vec<u8> {
    let mut head = Head::awaited(scene.record);
    let noisy = rng.one_in(scene.noise);
    let state = scene.record.map_or(State::Closed, |record| record.state);
    if matches!(state, State::Closed) && rng.one_in(4) {
        let any = any_number(rng);
        head.send = rng.pick(&[0, 61, 62, 63, any]);
    }
    let mut body = awaited_body(rng, scene, &state);
    if noisy {
        // One thing, or two.
        for _ in 0..rng.weighted(&[(3, 1), (1, 2)]) {
            if rng.one_in(2) {
                other_head(rng, &mut head, scene.record);
            } else if let Some(bytes) = other_body(rng, scene, &state) {
                body = bytes;
            } else {
                return odd_length(rng, &head);
            }
        }
    } else if rng.one_in(12) {
        rare(rng, scene, &state, &mut head, &mut body);
    }
    let mut bytes = head.frame(&body);
    if rng.one_in(20) {
        bytes[2] = rng.u8();
        bytes[3] = rng.u8();
    }
    bytes
}

/// Any marks, each as often as the others; numbers and command mostly those
/// that matter.
pub fn any(rng: &mut Rng, scene: &Scene) -> Vec<u8> {
    let (send, receive) = match scene.record {
        Some(record) => (record.send % 64, record.receive % 64),
        None => (FIRST_SEND, FIRST_RECEIVE),
    };
    let (some, other) = (any_number(rng), any_number(rng));
    let head = Head {
        receive: rng.weighted(&[(3, send), (1, some)]),
        receive_mark: rng.within(0, 3) as u8,
        send: rng.weighted(&[(4, (receive + 1) % 64), (2, receive), (1, other)]),
        send_mark: rng.within(0, 3) as u8,
    };
    let state = scene.record.map_or(State::Closed, |record| record.state);
    let body = match rng.within(0, 9) {
        0..=2 => Vec::new(),
        3..=5 => awaited_body(rng, scene, &state),
        6 => {
            let transaction = command::any_transaction(rng);
            let mut command = command::acknowledge(rng, transaction);
            command.bits |= ABORTED;
            command.bytes()
        }
        7 => {
            let mut bytes = any_body(rng, scene);
            command::spoil(rng, &mut bytes);
            bytes
        }
        _ => any_body(rng, scene),
    };
    head.frame(&body)
}

/// What random changes seldom hit together.
fn rare(rng: &mut Rng, scene: &Scene, state: &State, head: &mut Head, body: &mut Vec<u8>) {
    match state {
        // Refused with 9; the record stays and is Closed.
        State::Closed => head.send_mark = rng.pick(&[0, 3]),
        // Error responses that find no stored piece.
        State::Upload(transfer) if !transfer.stored => {
            head.receive_mark = 3;
            *body = any_body(rng, scene);
        }
        // Refused with 9, acknowledging or not.
        State::Upload(_) => {
            head.send_mark = rng.pick(&[0, 1, 3]);
            head.receive_mark = rng.pick(&[0, 1, 2]);
            head.receive = (head.receive + rng.pick(&[0, 0, 1, 63])) % 64;
            body.clear();
        }
        State::Opening | State::Established | State::Download(_) => {
            head.receive_mark = rng.pick(&[0, 1, 3]);
            head.send_mark = rng.pick(&[1, 2, 2, 3]);
        }
    }
}

fn any_number(rng: &mut Rng) -> u8 {
    rng.within(0, 63) as u8
}

/// The command that the state awaits; nothing is an empty frame.
fn awaited_body(rng: &mut Rng, scene: &Scene, state: &State) -> Vec<u8> {
    match state {
        State::Closed => Vec::new(),
        State::Opening | State::Established => any_body(rng, scene),
        State::Upload(transfer) => match rng.one_in(3) {
            true => command::acknowledge(rng, transfer.transaction).bytes(),
            false => Vec::new(),
        },
        State::Download(transfer) => command::part(rng, transfer).bytes(),
    }
}

fn any_body(rng: &mut Rng, scene: &Scene) -> Vec<u8> {
    let transaction = command::any_transaction(rng);
    command::any(rng, transaction, scene.sound_image, scene.strange).bytes()
}

fn other_head(rng: &mut Rng, head: &mut Head, record: Option<&Record>) {
    let last = record.map_or(FIRST_RECEIVE, |record| record.receive) % 64;
    let any = any_number(rng);
    match rng.within(0, 9) {
        // A repeat, a lost frame, an old one, any.
        0 | 1 => head.send = last,
        2 => head.send = (last + 2) % 64,
        3 => head.send = rng.pick(&[(last + 63) % 64, (last + 32) % 64, any]),
        4 => {
            let near = (head.receive + rng.pick(&[1, 63])) % 64;
            head.receive = rng.pick(&[near, near, any]);
        }
        5 | 6 => head.receive_mark = 3,
        7 => head.receive_mark = rng.within(0, 3) as u8,
        _ => head.send_mark = rng.within(0, 3) as u8,
    }
}

/// Another command; none for a request of an odd length.
fn other_body(rng: &mut Rng, scene: &Scene, state: &State) -> Option<Vec<u8>> {
    let running = match state {
        State::Upload(transfer) | State::Download(transfer) => Some(transfer.transaction),
        _ => None,
    };
    let transaction = match running {
        Some(transaction) if !rng.one_in(4) => transaction,
        _ => command::any_transaction(rng),
    };
    let mut other: Command = match (rng.within(0, 7), state) {
        (0, _) => return None,
        (1 | 2, _) => return Some(Vec::new()),
        (3, State::Download(transfer)) => command::part(rng, transfer),
        (3, _) => command::acknowledge(rng, transaction),
        _ => command::any(rng, transaction, scene.sound_image, scene.strange),
    };
    match rng.within(0, 9) {
        0 | 1 => other.bits |= ABORTED,
        2 => other.bits |= RESPONSE,
        3 => other.bits |= rng.u8() & 0x3F,
        4 => other.transaction = other.transaction.wrapping_add(1),
        5..=7 => {
            let mut bytes = other.bytes();
            command::spoil(rng, &mut bytes);
            return Some(bytes);
        }
        _ => {}
    }
    Some(other.bytes())
}

/// Under 4 bytes, and around 1,500.
fn odd_length(rng: &mut Rng, head: &Head) -> Vec<u8> {
    if rng.one_in(2) {
        let length = rng.within(0, 3);
        return rng.bytes(length);
    }
    let length = rng.pick(&[
        REQUEST - 1,
        REQUEST,
        REQUEST,
        REQUEST + 1,
        REQUEST + 2,
        2_000,
    ]);
    let read = command::read(rng.u8(), 0x1300, 0).bytes();
    let mut bytes = head.frame(&read);
    bytes.resize(length, rng.u8());
    bytes
}
