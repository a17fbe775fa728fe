//! The way of a client to a chosen state: by requests, or by a lent table.

use std::io::{self, Write};

use super::command::{self, ABORTED, Command};
use super::image;
use super::maker::Maker;
use super::table;
use crate::od::image::{Entry, entries};
use crate::replay::head::Head;
use crate::replay::item::Item;
use crate::replay::record::{Record, State};
use crate::replay::state::PIECE;
use crate::sdo::server::SdoClientInfo;

/// Where a client is to be brought.
#[derive(Clone, Copy, PartialEq, Eq)]
pub enum Place {
    NoRecord,
    Closed,
    Opening,
    Established,
    Upload,
    Download,
}

impl Place {
    fn of(record: Option<&Record>) -> Self {
        match record.map(|record| &record.state) {
            None => Self::NoRecord,
            Some(State::Closed) => Self::Closed,
            Some(State::Opening) => Self::Opening,
            Some(State::Established) => Self::Established,
            Some(State::Upload(_)) => Self::Upload,
            Some(State::Download(_)) => Self::Download,
        }
    }
}

impl<W: Write> Maker<'_, W> {
    pub fn place(&self, client: &SdoClientInfo) -> Place {
        Place::of(self.bench.record(client))
    }

    /// A request with this change of what the record awaits.
    pub fn send(
        &mut self,
        client: SdoClientInfo,
        change: impl FnOnce(&mut Head),
        body: &[u8],
    ) -> io::Result<()> {
        let mut head = Head::awaited(self.bench.record(&client));
        change(&mut head);
        self.ask(client, head.frame(body))
    }

    /// Brings the client there if a few requests can.
    pub fn bring(&mut self, client: SdoClientInfo, to: Place) -> io::Result<bool> {
        for _ in 0..4 {
            let at = self.place(&client);
            if at == to || !self.is_served() {
                break;
            }
            match (at, to) {
                (_, Place::Download) => return self.lend_download(client),
                (Place::NoRecord | Place::Closed, Place::NoRecord) => self.drop(client)?,
                (Place::NoRecord | Place::Closed, _) => self.send(client, |_| {}, &[])?,
                (Place::Opening, Place::Closed) => {
                    let other = |head: &mut Head| head.receive = (head.receive + 1) % 64;
                    self.send(client, other, &[])?;
                }
                (Place::Opening, Place::Established) => {
                    self.send(client, |head| head.receive_mark = 3, &[])?;
                }
                (Place::Opening | Place::Established, Place::Upload) => {
                    let read = self.read_of_long()?;
                    self.send(client, |_| {}, &read)?;
                }
                _ => self.drop(client)?,
            }
        }
        Ok(self.place(&client) == to)
    }

    /// A command with the aborted bit closes in every state.
    pub fn drop(&mut self, client: SdoClientInfo) -> io::Result<()> {
        let mut command = Command::new(0, 0, command::NIL, Vec::new());
        command.bits = ABORTED;
        self.send(client, |_| {}, &command.bytes())
    }

    /// One of the image's long values; another image if it has none.
    fn read_of_long(&mut self) -> io::Result<Vec<u8>> {
        if self.long_entries().is_empty() && self.profile.image > 0 {
            let image = image::sound_with_long(&mut self.rng);
            self.put(Item::Image(image))?;
        }
        let mut long = self.long_entries();
        let writable = |entry: &Entry| command::takes_expedited(entry);
        if !self.rng.one_in(3) && long.iter().any(writable) {
            // So that it can be overwritten while it is read.
            long.retain(writable);
        }
        let (index, sub_index) = match long.is_empty() {
            true => (0x2000, 0),
            false => self.rng.pick(&long).key(),
        };
        let transaction = command::any_transaction(&mut self.rng);
        Ok(command::read(transaction, index, sub_index).bytes())
    }

    pub fn entries(&self) -> Vec<Entry> {
        self.bench.sound_image().map(entries).unwrap_or_default()
    }

    fn long_entries(&self) -> Vec<Entry> {
        let mut long = self.entries();
        long.retain(|entry| entry.length > PIECE);
        long
    }

    /// The table with this record for its client, if there is room: in the
    /// order of clients, with this share or its own.
    pub fn lend_record(&mut self, mut record: Record, share: Option<u8>) -> io::Result<bool> {
        let mut table = *self.bench.table();
        let own = |held: &Record| held.used && held.client == record.client;
        let place = table.iter().position(own);
        let Some(place) = place.or_else(|| table.iter().position(|held| !held.used)) else {
            return Ok(false);
        };
        record.area = table[place].area;
        table[place] = record;
        if let Some(share) = share {
            // Whoever has the share takes this record's.
            let other = table.iter().position(|held| held.area == share);
            let other = other.expect("each number once");
            (table[other].area, table[place].area) = (record.area, share);
        }
        let used = table.iter().filter(|held| held.used).count();
        table[..used].sort_by_key(|held| held.client);
        self.put(Item::Table(Box::new(table)))?;
        Ok(true)
    }

    pub fn lend_download(&mut self, client: SdoClientInfo) -> io::Result<bool> {
        if self.profile.table == 0 {
            return Ok(false);
        }
        let entries = self.entries();
        let transfer = table::download(&mut self.rng, self.now, &entries);
        let record = Record {
            used: true,
            client,
            area: 0,
            send: table::number(&mut self.rng),
            receive: table::number(&mut self.rng),
            state: State::Download(transfer),
        };
        self.lend_record(record, None)
    }
}
