//! Short stories of a few calls that random steps seldom tell: each brings a
//! client where it is needed, then tries what is rare there.

use std::io::{self, Write};

use super::bring::Place;
use super::command;
use super::frame::{self, Scene};
use super::image;
use super::maker::Maker;
use super::table;
use crate::od::image::Entry;
use crate::replay::head::Head;
use crate::replay::item::Item;
use crate::replay::record::State;
use crate::replay::state::PIECE;
use crate::replay::table::RECORDS;
use crate::sdo::server::SdoClientInfo;

#[derive(Clone, Copy, PartialEq, Eq)]
pub enum Scenario {
    /// Any marks, numbers and command in a chosen state.
    AnyFrame,
    /// An upload to its end, with resends and writes in between.
    WholeUpload,
    /// An upload whose client is silent.
    Silence,
    /// More clients than records.
    Crowd,
    /// A write, then a read of what was written.
    ReadBack,
    /// A command that is aborted.
    Abort,
    /// A lent download and a part of it.
    Part,
    /// A download from Initiate to Complete; each part closes it, so that a
    /// table is lent in between.
    WholeDownload,
    /// A known id outside the domain of comparison.
    OtherId,
}

impl<W: Write> Maker<'_, W> {
    pub fn scenario(&mut self, scenario: Scenario) -> io::Result<()> {
        if !self.is_served() {
            return Ok(());
        }
        let client = self.any_client();
        match scenario {
            Scenario::AnyFrame => self.any_frame(client),
            Scenario::WholeUpload => self.whole_upload(client),
            Scenario::Silence => self.silence(client),
            Scenario::Crowd => self.crowd(),
            Scenario::ReadBack => self.read_back(client),
            Scenario::Abort => self.abort(client),
            Scenario::Part => self.part(client),
            Scenario::WholeDownload => self.whole_download(client),
            Scenario::OtherId => self.other_id(client),
        }
    }

    fn any_frame(&mut self, client: SdoClientInfo) -> io::Result<()> {
        let mut places = vec![
            (3, Place::NoRecord),
            (5, Place::Closed),
            (4, Place::Opening),
            (5, Place::Established),
            (6, Place::Upload),
        ];
        if self.profile.table > 0 {
            places.push((6, Place::Download));
        }
        let to = self.rng.weighted(&places);
        for _ in 0..self.rng.within(1, 3) {
            if !self.bring(client, to)? {
                break;
            }
            let scene = Scene::of(&self.bench, &client);
            let bytes = frame::any(&mut self.rng, &scene);
            self.ask(client, bytes)?;
        }
        Ok(())
    }

    /// What moves an upload on: an empty frame, a Nil or a response.
    fn acknowledge(&mut self, client: SdoClientInfo) -> io::Result<()> {
        let Some(State::Upload(transfer)) = self.bench.record(&client).map(|r| r.state) else {
            return Ok(());
        };
        let body = match self.rng.one_in(3) {
            true => command::acknowledge(&mut self.rng, transfer.transaction).bytes(),
            false => Vec::new(),
        };
        let step = self.rng.weighted(&[(8, 0), (1, 63)]);
        let receive = self.rng.weighted(&[(8, 0), (1, 1)]);
        let change = |head: &mut Head| {
            head.send = (head.send + step) % 64;
            head.receive = (head.receive + receive) % 64;
        };
        self.send(client, change, &body)
    }

    fn whole_upload(&mut self, client: SdoClientInfo) -> io::Result<()> {
        if !self.bring(client, Place::Upload)? {
            return Ok(());
        }
        // In peace, with any disturbance, or overwritten once.
        let (kind, when) = (self.rng.within(0, 3), self.rng.within(0, 4));
        for turn in 0..16 {
            if self.place(&client) != Place::Upload || !self.is_served() {
                break;
            }
            match kind {
                0 => {}
                1 if self.rng.one_in(2) => self.disturb(client)?,
                1 => {}
                _ if turn == when || turn < when && self.is_last_piece_next(&client) => {
                    self.overwrite(client)?;
                }
                _ => {}
            }
            self.acknowledge(client)?;
        }
        Ok(())
    }

    fn is_last_piece_next(&self, client: &SdoClientInfo) -> bool {
        let state = self.bench.record(client).map(|record| record.state);
        let Some(State::Upload(transfer)) = state else {
            return false;
        };
        transfer.total as usize <= transfer.offset as usize + PIECE
    }

    /// What an upload must not be changed by.
    fn disturb(&mut self, client: SdoClientInfo) -> io::Result<()> {
        match self.rng.within(0, 9) {
            0..=3 => self.overwrite(client),
            4..=6 => self.send(client, |head| head.receive_mark = 3, &[]),
            7 | 8 => {
                let clock = self.clock(1);
                self.put(Item::Tick(clock))
            }
            _ if self.profile.image > 0 => {
                let image = image::sound(&mut self.rng);
                self.put(Item::Image(image))
            }
            _ => Ok(()),
        }
    }

    /// Another client writes the object that this one reads; without one,
    /// the object is another one in the image that is lent next.
    fn overwrite(&mut self, reader: SdoClientInfo) -> io::Result<()> {
        let Some(State::Upload(transfer)) = self.bench.record(&reader).map(|r| r.state) else {
            return Ok(());
        };
        let key = (transfer.index, transfer.sub_index);
        let others: Vec<SdoClientInfo> = self.others(&reader);
        if others.is_empty() {
            return self.touch(key);
        }
        let writer = self.rng.pick(&others);
        let entry = self.entries().into_iter().find(|entry| entry.key() == key);
        match entry {
            Some(entry) if self.bring(writer, Place::Opening)? => {
                let write = command::fitting_write(&mut self.rng, &entry);
                self.send(writer, |_| {}, &write.bytes())
            }
            _ => Ok(()),
        }
    }

    /// The same image but for the value of this entry.
    fn touch(&mut self, key: (u16, u8)) -> io::Result<()> {
        let image = self.bench.sound_image();
        match image.and_then(|image| image::touched(image, key)) {
            Some(image) if self.profile.image > 0 => self.put(Item::Image(image)),
            _ => Ok(()),
        }
    }

    /// The clients at this time but for one: first those with a record.
    fn others(&self, client: &SdoClientInfo) -> Vec<SdoClientInfo> {
        let mut others = self.clients[..self.active].to_vec();
        others.retain(|other| other != client);
        let held: Vec<_> = others
            .iter()
            .filter(|other| self.bench.record(other).is_some())
            .copied()
            .collect();
        match held.is_empty() {
            true => others,
            false => held,
        }
    }

    fn silence(&mut self, client: SdoClientInfo) -> io::Result<()> {
        if !self.bring(client, Place::Upload)? {
            return Ok(());
        }
        for _ in 0..6 {
            let Some(deadline) = self.bench.deadline() else {
                break;
            };
            if self.place(&client) != Place::Upload || !self.is_served() {
                break;
            }
            if self.rng.one_in(3) {
                self.put(Item::Tick(deadline.saturating_sub(1)))?;
            }
            let late = self.rng.pick(&[0, 0, 1]);
            let clock = self.at_time(deadline.saturating_add(late));
            self.put(Item::Tick(clock))?;
        }
        Ok(())
    }

    fn crowd(&mut self) -> io::Result<()> {
        let clients = self.clients.clone();
        if clients.len() <= RECORDS {
            return Ok(());
        }
        let closed = self.rng.one_in(2);
        for client in clients {
            let full = self.bench.table().iter().all(|record| record.used);
            if full && self.bench.record(&client).is_none() {
                let bytes = self.next_request(&client);
                self.ask(client, bytes)?;
            } else if self.bench.record(&client).is_none() {
                let to = match closed && self.rng.one_in(3) {
                    true => Place::Closed,
                    false => Place::Opening,
                };
                self.bring(client, to)?;
            }
        }
        // Room again: most of them leave, by a tick or one by one.
        for client in self.clients.clone() {
            if self.rng.one_in(2) {
                self.bring(client, Place::Closed)?;
            } else if self.rng.one_in(2) {
                self.drop(client)?;
            }
        }
        let clock = self.clock(4);
        self.put(Item::Tick(clock))
    }

    fn read_back(&mut self, client: SdoClientInfo) -> io::Result<()> {
        let mut writable = self.entries();
        writable.retain(|entry| !entry.is_read_only());
        if writable.is_empty() || !self.bring(client, Place::Opening)? {
            return Ok(());
        }
        let entry = self.rng.pick(&writable);
        let write = command::fitting_write(&mut self.rng, &entry);
        self.send(client, |_| {}, &write.bytes())?;
        self.read_to_the_end(entry)
    }

    /// Any client reads this entry, and acknowledges to the end.
    fn read_to_the_end(&mut self, entry: Entry) -> io::Result<()> {
        let client = self.any_client();
        if !self.bring(client, Place::Opening)? {
            return Ok(());
        }
        let transaction = command::any_transaction(&mut self.rng);
        let read = command::read(transaction, entry.index, entry.sub_index);
        self.send(client, |_| {}, &read.bytes())?;
        for _ in 0..6 {
            self.acknowledge(client)?;
        }
        Ok(())
    }

    fn abort(&mut self, client: SdoClientInfo) -> io::Result<()> {
        if self.rng.one_in(5) {
            // Of the upload's transaction, or of another one.
            if !self.bring(client, Place::Upload)? {
                return Ok(());
            }
            let Some(State::Upload(transfer)) = self.bench.record(&client).map(|r| r.state) else {
                return Ok(());
            };
            let command = command::against_upload(&mut self.rng, transfer.transaction);
            return self.send(client, |_| {}, &command.bytes());
        }
        let to = self.rng.weighted(&[
            (1, Place::NoRecord),
            (1, Place::Closed),
            (4, Place::Opening),
            (2, Place::Established),
        ]);
        if !self.bring(client, to)? {
            return Ok(());
        }
        let entries = self.entries();
        let body = command::aborted(&mut self.rng, &entries);
        self.send(client, |_| {}, &body)
    }

    fn other_id(&mut self, client: SdoClientInfo) -> io::Result<()> {
        let to = self.rng.pick(&[Place::NoRecord, Place::Opening]);
        if !self.bring(client, to)? {
            return Ok(());
        }
        let entries = self.entries();
        let command = command::other_id(&mut self.rng, &entries);
        self.send(client, |_| {}, &command.bytes())
    }

    fn part(&mut self, client: SdoClientInfo) -> io::Result<()> {
        if !self.lend_download(client)? {
            return Ok(());
        }
        let Some(State::Download(transfer)) = self.bench.record(&client).map(|r| r.state) else {
            return Ok(());
        };
        let mut part = command::part(&mut self.rng, &transfer);
        if self.rng.one_in(12) {
            part.transaction = part.transaction.wrapping_add(1);
        }
        self.send(client, |_| {}, &part.bytes())
    }

    fn whole_download(&mut self, client: SdoClientInfo) -> io::Result<()> {
        let mut entries = self.entries();
        entries.retain(|entry| !entry.is_read_only());
        if self.profile.table == 0 || entries.is_empty() {
            return Ok(());
        }
        let entry = self.rng.pick(&entries);
        if !self.bring(client, Place::Opening)? {
            return Ok(());
        }
        let mut record = *self.bench.record(&client).expect("it was brought there");
        let share = record.area;
        let mut write = command::initiate(&mut self.rng, &entry);
        self.send(client, |_| {}, &write.bytes())?;
        let mut transfer = table::download_of(&write, &entry, self.now);
        for turn in 0.. {
            record.send = table::number(&mut self.rng);
            record.state = State::Download(transfer);
            if !self.is_served() || !self.lend_record(record, Some(share))? {
                return Ok(());
            }
            let last = turn >= 6 || self.rng.one_in(2);
            write = command::good_part(&mut self.rng, &transfer, last);
            self.send(client, |_| {}, &write.bytes())?;
            if write.segmentation == command::COMPLETE {
                break;
            }
            transfer.offset += write.payload.len() as u32;
        }
        self.read_to_the_end(entry)
    }
}
