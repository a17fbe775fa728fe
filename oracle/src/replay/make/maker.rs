//! Makes a script item by item.

use std::io::{self, Write};

use super::command;
use super::frame::{self, Scene};
use super::image;
use super::profile::Profile;
use super::table;
use crate::od::image::entries;
use crate::replay::area::AREA;
use crate::replay::bench::{ANSWER, Bench, MAX_CLOCK};
use crate::replay::head::Head;
use crate::replay::item::{Item, Lengths};
use crate::replay::record::State;
use crate::replay::table::RECORDS;
use crate::rng::Rng;
use crate::sdo::server::SdoClientInfo;
use crate::stream::Progress;

pub struct Maker<'a, W> {
    pub profile: Profile,
    pub rng: Rng,
    pub bench: Bench,
    out: &'a mut W,
    progress: Progress,
    /// Calls yet to be made.
    pub left: u64,
    pub now: u64,
    pub clients: Vec<SdoClientInfo>,
    /// For how many steps the next three stay.
    era: usize,
    pub active: usize,
    noise: usize,
    ticks: usize,
    short_lengths: bool,
}

impl<'a, W: Write> Maker<'a, W> {
    pub fn new(seed: u64, count: u64, profile: Profile, out: &'a mut W) -> Self {
        let mut rng = Rng::new(seed);
        for _ in 0..profile.salt {
            rng = Rng::new(rng.u64());
        }
        let most = profile.clients.iter().max().expect("one at least");
        let clients = table::clients(&mut rng, *most);
        Self {
            profile,
            rng,
            bench: Bench::new(),
            out,
            progress: Progress::new(),
            left: count,
            now: 0,
            clients,
            era: 0,
            active: 1,
            noise: 1,
            ticks: 1,
            short_lengths: false,
        }
    }

    pub fn start(&mut self) -> io::Result<()> {
        let base = self.rng.u8();
        self.put(Item::Area(base))?;
        let image = image::sound(&mut self.rng);
        self.put(Item::Image(image))
    }

    /// Plays and writes an item; what comes after the last call is left out.
    pub fn put(&mut self, item: Item) -> io::Result<()> {
        if self.left == 0 {
            return Ok(());
        }
        if item.is_call() {
            self.left -= 1;
        }
        self.bench.apply(&item);
        let mut bytes = Vec::new();
        item.write(&mut bytes);
        self.progress.step();
        self.out.write_all(&bytes)
    }

    /// True once in `n` times, never for 0.
    pub fn once_in(&mut self, n: usize) -> bool {
        n > 0 && self.rng.one_in(n)
    }

    pub fn step(&mut self) -> io::Result<()> {
        if self.era == 0 {
            self.era = self.rng.within(20, 200);
            self.active = self.rng.pick(self.profile.clients);
            self.noise = self.rng.pick(self.profile.noise);
            self.ticks = self.rng.pick(&[5, 12, 40]);
            self.rng.shuffle(&mut self.clients);
            if self.rng.one_in(6) {
                // The clock is set back, or at most a little on.
                let some = self.rng.within(0, 1_000_000_000) as u64;
                self.now = self.rng.pick(&[0, some, self.now / 2]);
            }
        }
        self.era -= 1;
        self.lend()?;
        if self.rng.one_in(500) {
            return self.long_connection();
        }
        if self.once_in(self.profile.scenario) {
            let scenario = self.rng.weighted(self.profile.scenarios);
            return self.scenario(scenario);
        }
        let queries = if self.short_lengths { 6 } else { 30 };
        if self.rng.one_in(queries) {
            return self.put(Item::Query);
        }
        if self.once_in(self.ticks) {
            let clock = match self.rng.one_in(25) {
                true => self.odd_clock(),
                false => self.clock(2),
            };
            return self.put(Item::Tick(clock));
        }
        let client = self.any_client();
        let bytes = match self.once_in(self.profile.random) {
            true => self.random_bytes(),
            false => self.next_request(&client),
        };
        self.ask(client, bytes)
    }

    pub fn any_client(&mut self) -> SdoClientInfo {
        self.clients[self.rng.within(0, self.active - 1)]
    }

    /// Whether a request can be more than refused for what is lent.
    pub fn is_served(&self) -> bool {
        self.left > 0 && self.bench.is_served()
    }

    /// Another image, table, area or other lengths now and then.
    fn lend(&mut self) -> io::Result<()> {
        let Profile {
            image,
            table,
            area,
            lengths,
            ..
        } = self.profile;
        let unsound = self.bench.sound_image().is_none();
        if self.once_in(image) || unsound && self.rng.one_in(3) {
            let image = self.next_image();
            self.put(Item::Image(image))?;
        }
        if self.once_in(table) {
            self.lend_table()?;
        }
        if self.once_in(area) {
            let base = self.rng.u8();
            self.put(Item::Area(base))?;
        }
        if self.short_lengths && self.rng.one_in(3) {
            self.short_lengths = false;
            self.lend_lengths(ANSWER, AREA, RECORDS)?;
        } else if self.once_in(lengths) {
            self.short_lengths = true;
            let answer = self.rng.pick(&[ANSWER, ANSWER, 1_469, 1_600, 1_467, 0]);
            let area = self
                .rng
                .pick(&[AREA, AREA, AREA, 65_535, 65_537, 65_600, 0]);
            let table = self.rng.pick(&[RECORDS, RECORDS, RECORDS, 7, 9, 0]);
            self.lend_lengths(answer, area, table)?;
        }
        Ok(())
    }

    fn lend_lengths(&mut self, answer: usize, area: usize, table: usize) -> io::Result<()> {
        self.put(Item::Lengths(Lengths {
            answer,
            area,
            table,
        }))
    }

    fn next_image(&mut self) -> Vec<u8> {
        if self.once_in(self.profile.spoilt_image) {
            image::spoilt(&mut self.rng)
        } else if self.once_in(self.profile.border_image) {
            image::sound_at_a_border(&mut self.rng)
        } else {
            image::sound(&mut self.rng)
        }
    }

    fn lend_table(&mut self) -> io::Result<()> {
        let entries = self.bench.sound_image().map(entries).unwrap_or_default();
        let clients = &self.clients[..self.active];
        let mut table = table::sound(&mut self.rng, self.now, clients, &entries);
        if self.once_in(self.profile.spoilt_table) {
            table::spoil(&mut self.rng, &mut table);
        }
        self.put(Item::Table(Box::new(table)))
    }

    /// Mostly a little later; once in `n` times about a deadline.
    pub fn clock(&mut self, n: usize) -> u64 {
        let deadline = self.bench.deadline().filter(|_| self.rng.one_in(n));
        if let Some(deadline) = deadline {
            let (before, after) = (deadline.saturating_sub(1), deadline.saturating_add(1));
            let clock = self.rng.pick(&[before, deadline, after]);
            return self.at_time(clock);
        }
        if self.rng.one_in(60) {
            return self.odd_clock();
        }
        let step = self.rng.pick(&[0, 1, 1_000, 50_000, 3_000_000]);
        self.now += self.rng.within(0, step) as u64;
        self.now
    }

    /// The first, the last, or one beyond.
    fn odd_clock(&mut self) -> u64 {
        let any = self.rng.u64();
        let last = MAX_CLOCK;
        self.rng.pick(&[0, 1, last, last, last + 1, u64::MAX, any])
    }

    /// It is this time now; far ones leave the time as it is.
    pub fn at_time(&mut self, clock: u64) -> u64 {
        if clock < 1 << 60 {
            self.now = self.now.max(clock);
        }
        clock
    }

    pub fn ask(&mut self, client: SdoClientInfo, bytes: Vec<u8>) -> io::Result<()> {
        let clock = self.clock(40);
        self.put(Item::Request {
            client,
            clock,
            bytes,
        })
    }

    pub fn next_request(&mut self, client: &SdoClientInfo) -> Vec<u8> {
        let strange = self.once_in(self.profile.strange);
        let scene = Scene {
            noise: self.noise,
            strange,
            ..Scene::of(&self.bench, client)
        };
        frame::request(&mut self.rng, &scene)
    }

    fn random_bytes(&mut self) -> Vec<u8> {
        let any = self.rng.within(0, 1_510);
        let length = self.rng.pick(&[4, 5, 11, 12, 13, 16, 20, 30, any]);
        let mut bytes = self.rng.bytes(length);
        if length >= 12 && self.rng.one_in(2) {
            // A known id, and a size that fits.
            bytes[7] = self.rng.pick(&[0, 1, 2, 3, 6, 0x32, 0x40, 0x70]);
            let size = self.rng.within(0, length - 12) as u16;
            bytes[8..10].copy_from_slice(&size.to_le_bytes());
        }
        bytes
    }

    /// Many frames on one connection, so that the numbers pass 63: empty ones
    /// that are refused with 9, or error responses.
    fn long_connection(&mut self) -> io::Result<()> {
        let client = self.any_client();
        for _ in 0..2 {
            let record = self.bench.record(&client);
            let mut head = Head::awaited(record);
            let body = match record.map_or(State::Closed, |record| record.state) {
                State::Closed => Vec::new(),
                State::Opening if self.rng.one_in(2) => {
                    head.receive_mark = 3;
                    Vec::new()
                }
                State::Opening => self.read_of_longest(),
                _ => break,
            };
            self.ask(client, head.frame(&body))?;
        }
        let (short, long) = (self.rng.within(1, 40), self.rng.within(60, 90));
        for _ in 0..self.rng.pick(&[short, long]) {
            let mut head = Head::awaited(self.bench.record(&client));
            if self.rng.one_in(8) {
                head.receive_mark = 3;
            } else {
                head.send_mark = self.rng.pick(&[0, 1, 3]);
            }
            if self.rng.one_in(8) {
                head.receive = self.rng.within(0, 63) as u8;
            }
            self.ask(client, head.frame(&[]))?;
        }
        Ok(())
    }

    /// A read of the image's longest value.
    fn read_of_longest(&mut self) -> Vec<u8> {
        let entries = self.bench.sound_image().map(entries).unwrap_or_default();
        let longest = entries.iter().max_by_key(|entry| entry.length);
        let (index, sub_index) = longest.map_or((0x2000, 0), |entry| entry.key());
        let transaction = command::any_transaction(&mut self.rng);
        command::read(transaction, index, sub_index).bytes()
    }
}
