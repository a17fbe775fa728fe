//! The small fixed script: one client from the empty table on, through every
//! kind of call and answer, then some random calls.

use std::io::{self, Write};

use super::command::{self, ABORTED, Command};
use super::image::{RETRIES, TIMEOUT};
use super::maker::Maker;
use super::profile::{ONE, Profile};
use crate::od::image::{Content, READ_ONLY, VARIABLE, build};
use crate::replay::head::Head;
use crate::replay::item::Item;
use crate::replay::record::State;

/// The images are those lent here: a script of few bytes.
const RANDOM: Profile = Profile { image: 0, ..ONE };
const RANDOM_CALLS: u64 = 40;

pub const TID: u8 = 7;

pub fn sample(out: &mut impl Write) -> io::Result<()> {
    let mut maker = Maker::new(1, u64::MAX, RANDOM, out);
    maker.put(Item::Area(0x31))?;
    maker.query_and_tick()?;
    maker.hello()?;
    maker.say(|_| {}, &some_read())?;
    maker.lend_image(&settings(7, 1), &[1_453, 2_904, 2_905])?;
    maker.reads()?;
    maker.writes()?;
    maker.other_commands()?;
    maker.closed()?;
    maker.left_closed()?;
    maker.opening()?;
    maker.established()?;
    maker.lengths_and_clocks()?;
    maker.uploads_of_closed()?;
    maker.uploads()?;
    maker.lend_image(&[], &[1_452, 8_192])?;
    maker.reads()?;
    maker.timeouts(1)?;
    maker.lend_image(&odd_settings(), &[1_453])?;
    maker.object_changes()?;
    maker.timeouts(0)?;
    maker.lend_image(&settings(5, 0), &[5_809])?;
    maker.reads()?;
    maker.timeouts(0)?;
    maker.settings_written()?;
    maker.random_calls()?;
    maker.lend_image(&settings(1_000, 3), &[4_357])?;
    maker.random_calls()
}

fn content(index: u16, sub_index: u8, flags: u8, capacity: usize, length: usize) -> Content {
    let byte = |i: usize| (i * 31 + i / 251 + capacity) as u8;
    Content {
        index,
        sub_index,
        flags,
        capacity,
        value: (0..length).map(byte).collect(),
    }
}

/// A command that is served in any state but an upload.
pub fn some_read() -> Vec<u8> {
    command::read(TID, 0x2001, 1).bytes()
}

fn settings(timeout: u32, retries: u32) -> Vec<Content> {
    let mut made = [content(TIMEOUT, 0, 0, 4, 4), content(RETRIES, 0, 0, 4, 4)];
    made[0].value = timeout.to_le_bytes().to_vec();
    made[1].value = retries.to_le_bytes().to_vec();
    made.to_vec()
}

/// Two that do not count.
fn odd_settings() -> Vec<Content> {
    let timeout = content(TIMEOUT, 0, VARIABLE, 4, 4);
    vec![timeout, content(RETRIES, 0, 0, 2, 2)]
}

impl<W: Write> Maker<'_, W> {
    /// An image of these settings, short entries of every kind, and long ones.
    fn lend_image(&mut self, settings: &[Content], lengths: &[usize]) -> io::Result<()> {
        let mut contents = settings.to_vec();
        contents.push(content(0x2001, 0, 0, 4, 4));
        contents.push(content(0x2001, 1, VARIABLE, 6, 2));
        contents.push(content(0x2001, 2, READ_ONLY, 4, 4));
        contents.push(content(0x2001, 3, VARIABLE | READ_ONLY, 4, 0));
        for (sub_index, &length) in lengths.iter().enumerate() {
            contents.push(content(0x2002, sub_index as u8, VARIABLE, length, length));
        }
        self.put(Item::Image(build(&contents)))
    }

    fn random_calls(&mut self) -> io::Result<()> {
        self.left = RANDOM_CALLS;
        while self.left > 0 {
            self.step()?;
        }
        self.left = u64::MAX;
        Ok(())
    }

    /// The request that the record awaits, with this change and command.
    pub fn say(&mut self, change: impl FnOnce(&mut Head), command: &[u8]) -> io::Result<()> {
        let client = self.clients[0];
        let mut head = Head::awaited(self.bench.record(&client));
        change(&mut head);
        let clock = self.tour_clock();
        self.put(Item::Request {
            client,
            clock,
            bytes: head.frame(command),
        })
    }

    pub fn tour_clock(&mut self) -> u64 {
        self.now += 1_000;
        self.now
    }

    pub fn state(&self) -> State {
        let record = self.bench.record(&self.clients[0]);
        record.map_or(State::Closed, |record| record.state)
    }

    pub fn query_and_tick(&mut self) -> io::Result<()> {
        self.put(Item::Query)?;
        let clock = self.tour_clock();
        self.put(Item::Tick(clock))
    }

    /// From wherever the connection is to Opening.
    pub fn hello(&mut self) -> io::Result<()> {
        if !matches!(self.state(), State::Closed) {
            let mut abort = Command::new(TID, 0, command::NIL, Vec::new());
            abort.bits = ABORTED;
            self.say(|_| {}, &abort.bytes())?;
        }
        self.say(|head| head.send = 62, &[])
    }

    /// Hello, then this command.
    pub fn ask_for(&mut self, command: &Command) -> io::Result<()> {
        self.hello()?;
        self.say(|_| {}, &command.bytes())
    }
}
