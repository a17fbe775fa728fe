//! The parts of the small fixed script: the kinds of calls in each state.

use std::io::{self, Write};

use super::command::{self, ABORTED, Command, RESPONSE};
use super::image::{RETRIES, TIMEOUT, touched};
use super::maker::Maker;
use super::sample::{TID, some_read};
use crate::od::image::entries;
use crate::replay::bench::MAX_CLOCK;
use crate::replay::head::Head;
use crate::replay::item::Item;
use crate::replay::record::State;

impl<W: Write> Maker<'_, W> {
    /// Every entry, to the end of its upload; what is missing.
    pub fn reads(&mut self) -> io::Result<()> {
        let image = self.bench.sound_image().expect("lent so").to_vec();
        let mut keys: Vec<_> = entries(&image).iter().map(|entry| entry.key()).collect();
        keys.extend([(0x2001, 9), (0x2003, 0), (0x1000, 0), (0xFFFF, 255)]);
        for (index, sub_index) in keys {
            self.ask_for(&command::read(TID, index, sub_index))?;
            let mut turn = 0;
            while let State::Upload(_) = self.state() {
                self.put(Item::Query)?;
                let nil = Command::new(TID, 0, command::NIL, Vec::new());
                let mut answer = Command::new(TID, 2, command::READ, vec![1, 2, 3]);
                answer.bits = RESPONSE;
                match turn % 3 {
                    0 => self.say(|_| {}, &[])?,
                    1 => self.say(|_| {}, &nil.bytes())?,
                    _ => self.say(|_| {}, &answer.bytes())?,
                }
                turn += 1;
            }
        }
        for length in 0..4 {
            let mut short = command::read(TID, 0x2001, 0);
            short.payload.truncate(length);
            self.ask_for(&short)?;
        }
        Ok(())
    }

    pub fn writes(&mut self) -> io::Result<()> {
        let keys = [
            (0x2001, 0),
            (0x2001, 1),
            (0x2001, 2),
            (0x2001, 3),
            (0x2001, 9),
            (0x2003, 0),
        ];
        for (index, sub_index) in keys {
            for length in [0, 3, 4, 5, 6, 7] {
                let mut payload = command::name(index, sub_index, 9);
                payload.extend(&b"written"[..length]);
                self.ask_for(&Command::new(
                    TID,
                    command::EXPEDITED,
                    command::WRITE,
                    payload,
                ))?;
            }
            self.ask_for(&command::read(TID, index, sub_index))?;
        }
        for total in [0, 1, 3, 8_192, 8_193, u32::MAX] {
            for length in [3, 4, 7] {
                let payload = vec![0x20; length];
                let mut write = Command::new(TID, command::INITIATE, command::WRITE, payload);
                write.total = total;
                self.ask_for(&write)?;
            }
        }
        for segmentation in [command::EXPEDITED, command::SEGMENT, command::COMPLETE] {
            self.ask_for(&Command::new(TID, segmentation, command::WRITE, vec![1, 2]))?;
        }
        let mut longest = command::name(0x2001, 1, 0);
        longest.resize(1_484, 0x5A);
        let mut write = Command::new(TID, command::INITIATE, command::WRITE, longest);
        write.total = 2;
        self.ask_for(&write)
    }

    /// Every id, aborted or not; undecodable ones.
    pub fn other_commands(&mut self) -> io::Result<()> {
        for id in [0, 1, 2, 0x40, 0x70] {
            for bits in [0, RESPONSE, ABORTED, 0x0F] {
                let mut any = Command::new(TID, 0, id, command::name(0x2001, 1, 0));
                any.bits = bits;
                self.ask_for(&any)?;
            }
        }
        for id in [3, 4, 5, 6, 0x20, 0x21, 0x31, 0x32, 0x71, 0x99] {
            let payload = command::name(0x2001, 1, 0);
            self.ask_for(&Command::new(TID, 0, id, payload))?;
        }
        for length in 0..=4 {
            let payload = vec![0x34; length];
            self.ask_for(&Command::new(TID, 0, command::MAX_SEGMENT_SIZE, payload))?;
        }
        let mut whole = command::read(TID, 0x2001, 0);
        whole.first = 0xF5;
        for length in 1..12 {
            self.hello()?;
            self.say(|_| {}, &whole.bytes()[..length])?;
        }
        whole.segmentation = command::INITIATE;
        for length in [8, 11, 12, 15, 16] {
            self.hello()?;
            self.say(|_| {}, &whole.bytes()[..length])?;
        }
        Ok(())
    }

    /// Every pair of marks in the state that is prepared, with each body.
    fn marks(
        &mut self,
        prepare: fn(&mut Self) -> io::Result<()>,
        bodies: &[&[u8]],
    ) -> io::Result<()> {
        for marks in 0..16 {
            for body in bodies {
                prepare(self)?;
                let change = |head: &mut Head| {
                    head.receive_mark = marks >> 2;
                    head.send_mark = marks & 3;
                };
                self.say(change, body)?;
            }
        }
        Ok(())
    }

    pub fn closed(&mut self) -> io::Result<()> {
        let prepare = |maker: &mut Self| {
            if !matches!(maker.state(), State::Closed) {
                maker.say(|head| head.send_mark = 0, &[0xFF])?;
            }
            let clock = maker.tour_clock();
            maker.put(Item::Tick(clock))
        };
        self.marks(prepare, &[&[], &some_read()])
    }

    /// A record that a refusal left Closed.
    pub fn left_closed(&mut self) -> io::Result<()> {
        let prepare = |maker: &mut Self| {
            maker.hello()?;
            maker.say(|head| head.receive = 1, &[])
        };
        self.marks(prepare, &[&[], &some_read()])
    }

    pub fn opening(&mut self) -> io::Result<()> {
        self.marks(Self::hello, &[&[], &some_read()])?;
        for (receive, send) in [(1, 63), (63, 63), (0, 40)] {
            self.hello()?;
            let change = |head: &mut Head| (head.receive, head.send) = (receive, send);
            self.say(change, &some_read())?;
        }
        Ok(())
    }

    fn reach_established(&mut self) -> io::Result<()> {
        self.hello()?;
        self.say(|head| head.receive_mark = 3, &[])
    }

    pub fn established(&mut self) -> io::Result<()> {
        self.marks(Self::reach_established, &[&[], &some_read()])?;
        for step in [0, 2, 3, 32, 62, 63] {
            self.reach_established()?;
            // From the awaited number: a repeat is one less.
            self.say(|head| head.send = (head.send + step) % 64, &[])?;
        }
        // The numbers pass 63.
        self.reach_established()?;
        for _ in 0..70 {
            self.say(|head| head.send_mark = 3, &[])?;
        }
        self.say(|_| {}, &some_read())
    }

    pub fn lengths_and_clocks(&mut self) -> io::Result<()> {
        let client = self.clients[0];
        let read = some_read();
        for length in [0, 1, 2, 3, 1_500, 1_501] {
            self.hello()?;
            let head = Head::awaited(self.bench.record(&client));
            let mut bytes = head.frame(&read);
            bytes.resize(length, 0xEE);
            let clock = self.tour_clock();
            self.put(Item::Request {
                client,
                clock,
                bytes,
            })?;
        }
        for clock in [MAX_CLOCK, MAX_CLOCK + 1, u64::MAX] {
            self.hello()?;
            let head = Head::awaited(self.bench.record(&client));
            let bytes = head.frame(&command::read(TID, 0x2002, 0).bytes());
            self.put(Item::Request {
                client,
                clock,
                bytes,
            })?;
            self.put(Item::Query)?;
            self.put(Item::Tick(clock))?;
        }
        Ok(())
    }

    /// Uploads that begin without a handshake.
    pub fn uploads_of_closed(&mut self) -> io::Result<()> {
        for send_mark in [0, 1, 2] {
            if !matches!(self.state(), State::Closed) {
                self.say(|head| head.send_mark = 0, &[0xFF])?;
            }
            let read = command::read(TID, 0x2002, 0).bytes();
            self.say(|head| head.send_mark = send_mark, &read)?;
            self.say(|_| {}, &[])?;
        }
        Ok(())
    }

    fn reach_upload(&mut self) -> io::Result<()> {
        self.ask_for(&command::read(TID, 0x2002, 2))
    }

    /// What may come instead of an acknowledgement, and the next frame.
    pub fn uploads(&mut self) -> io::Result<()> {
        self.marks(Self::reach_upload, &[&[]])?;
        for step in [0, 2, 32, 63] {
            for receive in [0, 1, 63] {
                self.reach_upload()?;
                let change = |head: &mut Head| {
                    head.send = (head.send + step) % 64;
                    head.receive = (head.receive + receive) % 64;
                };
                self.say(change, &[])?;
                self.say(|head| head.receive_mark = 3, &[])?;
            }
        }
        self.reach_upload()?;
        self.say(|_| {}, &some_read())?;
        let mut other = Command::new(TID + 1, 0, command::NIL, Vec::new());
        self.reach_upload()?;
        self.say(|_| {}, &other.bytes())?;
        other.bits = ABORTED;
        self.reach_upload()?;
        self.say(|_| {}, &other.bytes())?;
        self.reach_upload()?;
        self.say(|_| {}, &[0x0C, 1])?;
        // Refused with 9: a right receive number loses deadline and stored
        // piece, a wrong one does not.
        for receive in [1, 0] {
            self.reach_upload()?;
            let change = |head: &mut Head| {
                head.send_mark = 0;
                head.receive = (head.receive + receive) % 64;
            };
            self.say(change, &[])?;
            self.query_and_tick()?;
        }
        for body in [&[][..], &some_read()] {
            self.say(|head| head.receive_mark = 3, body)?;
        }
        self.say(|_| {}, &[])?;
        self.timeouts(2)
    }

    /// An upload whose object changes before its last piece.
    pub fn object_changes(&mut self) -> io::Result<()> {
        self.ask_for(&command::read(TID, 0x2002, 0))?;
        let image = self.bench.sound_image().expect("lent so");
        let image = touched(image, (0x2002, 0)).expect("it is being read");
        self.put(Item::Image(image))?;
        self.say(|head| head.receive_mark = 3, &[])?;
        self.say(|_| {}, &[])
    }

    /// Timeout and retries as a client writes them, and an upload with them.
    pub fn settings_written(&mut self) -> io::Result<()> {
        for (index, value) in [(TIMEOUT, 250u32), (RETRIES, 1)] {
            let mut payload = command::name(index, 0, 0);
            payload.extend(value.to_le_bytes());
            let segmentation = command::EXPEDITED;
            self.ask_for(&Command::new(TID, segmentation, command::WRITE, payload))?;
            self.ask_for(&command::read(TID, index, 0))?;
        }
        self.timeouts(0)
    }

    /// An upload whose client is silent, until it is aborted.
    pub fn timeouts(&mut self, sub_index: u8) -> io::Result<()> {
        self.ask_for(&command::read(TID, 0x2002, sub_index))?;
        while let Some(deadline) = self.bench.deadline() {
            self.put(Item::Tick(deadline - 1))?;
            self.put(Item::Tick(deadline))?;
            self.put(Item::Query)?;
            self.now = deadline;
        }
        Ok(())
    }
}
