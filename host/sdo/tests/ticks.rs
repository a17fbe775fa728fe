//! A tick that does not matter changes nothing: a server that is spared such
//! ticks and one that gets a tick every millisecond stay the same, byte for byte.

use formats::client::Client;
use formats::dictionary::{encode, Entry};
use formats::object::Object;
use formats::random::Random;
use formats::record::RECORD_SIZE;
use sdo::{Answered, Refusal, Server, ANSWER_SIZE};

/// A long object, a timeout of 4 ms and one retry.
fn image() -> Vec<u8> {
    let entry = |index, value: Vec<u8>| Entry {
        object: Object { index, sub: 0 },
        variable: false,
        read_only: false,
        capacity: value.len() as u16,
        value,
    };
    let long = (0..4_000u32).map(|at| (at * 31 + at / 251) as u8).collect();
    encode(&[
        entry(0x1300, vec![4, 0, 0, 0]),
        entry(0x1302, vec![1, 0, 0, 0]),
        entry(0x2001, long),
    ])
    .unwrap()
}

/// A server with what it is lent, and its last answer.
#[derive(Clone)]
struct Side {
    server: Server,
    image: Vec<u8>,
    answer: Vec<u8>,
}

impl Side {
    fn request(&mut self, client: Client, clock: u64, frame: &[u8]) -> Result<Answered, Refusal> {
        self.server
            .handle_request(&mut self.image, &mut self.answer, client, clock, frame)
    }

    fn tick(&mut self, clock: u64) -> Option<Answered> {
        self.server
            .tick(&self.image, &mut self.answer, clock)
            .unwrap()
    }

    fn assert_same(&self, other: &Side) {
        assert!(self.server.table() == other.server.table(), "tables differ");
        assert!(self.server.area() == other.server.area(), "areas differ");
        assert!(self.image == other.image, "images differ");
        assert!(self.answer == other.answer, "answers differ");
    }
}

/// How often each thing happened.
#[derive(Default)]
struct Seen {
    spared: u32,
    dropped: u32,
    resent: u32,
    refused: u32,
}

/// A frame that this client might send: mostly one that its record makes sense of.
fn frame(random: &mut Random, server: &Server, client: Client) -> Vec<u8> {
    let number = |at| {
        let mut records = server.table().chunks_exact(RECORD_SIZE);
        let own = records.find(|bytes| bytes[0] == 1 && bytes[1..9] == client.to_bytes());
        own.map_or(0, |bytes| bytes[at])
    };
    let (send, receive) = (number(10), number(11));
    let next = (receive + 1) % 64;
    let head = |receive_mark, number, mark| vec![send * 4 + receive_mark, number * 4 + mark, 0, 0];
    let read = [0, 7, 0, 2, 4, 0, 0, 0, 1, 0x20, 0, 0];
    match random.below(10) {
        0..=2 => vec![0, 1, 0, 0],
        3 | 4 => [head(2, next, 2), read.to_vec()].concat(),
        5 => head(2, next, 2),
        6 => head(2, receive, 2),
        7 => head(3, next, 2),
        8 => head(2, next, 3),
        _ => (0..4).map(|_| random.byte()).collect(),
    }
}

/// One millisecond on both sides: a tick, and a tick where it matters.
fn pass(every: &mut Side, spared: &mut Side, clock: u64, seen: &mut Seen) {
    let used = every.server.connected().count();
    let told = every.tick(clock);
    if spared.server.tick_matters(clock) {
        assert_eq!(spared.tick(clock), told);
        seen.resent += u32::from(told.is_some());
        seen.dropped += u32::from(told.is_none() && every.server.connected().count() < used);
    } else {
        assert_eq!(told, None);
        seen.spared += 1;
    }
    every.assert_same(spared);
}

#[test]
fn ticks_that_do_not_matter_can_be_spared() {
    let mut random = Random::new(8);
    let mut every = Side {
        server: Server::new(),
        image: image(),
        answer: vec![0xA5; ANSWER_SIZE],
    };
    let mut spared = every.clone();
    let mut seen = Seen::default();
    for clock in (0..20_000_000).step_by(1_000) {
        if random.below(3) == 0 {
            let client = Client::Udp {
                address: [10, 0, 0, 1].into(),
                port: random.below(10) as u16,
            };
            let frame = frame(&mut random, &every.server, client);
            let told = every.request(client, clock, &frame);
            assert_eq!(spared.request(client, clock, &frame), told);
            seen.refused += u32::from(told.is_err());
            every.assert_same(&spared);
        }
        pass(&mut every, &mut spared, clock + 500, &mut seen);
    }
    let Seen {
        spared,
        dropped,
        resent,
        refused,
    } = seen;
    println!("{spared} spared, {dropped} dropped only, {resent} answered, {refused} refused");
    assert!(spared > 5_000 && dropped > 500 && resent > 500 && refused > 500);
}
