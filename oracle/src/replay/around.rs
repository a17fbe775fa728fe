//! The Rust server, and around it what the Rust has no notion of: area
//! numbers and the area's bytes. Both go by document 01's words.

use std::collections::{BTreeMap, VecDeque};

use super::area::Area;
use super::dispatch::{LENGTH, check_stored, data_to_store, dispatched, within_domain};
use super::record::Record;
use super::state::{piece_before, record_state, rust_state, upload};
use super::table::Table;
use crate::PowerlinkError;
use crate::od::ObjectDictionary;
use crate::sdo::sequence_handler::SdoSequenceHandler;
use crate::sdo::server::{SdoClientInfo, SdoServer};
use crate::sdo::transport::SdoResponseData;

pub struct Around {
    server: SdoServer,
    /// The area number of each client that the server holds.
    used: BTreeMap<SdoClientInfo, u8>,
    /// Those of the unused records, in their order.
    unused: VecDeque<u8>,
}

impl Around {
    /// The server with the connections of a sound table.
    pub fn lent(table: &Table, area: &Area) -> Self {
        let mut server = SdoServer::new();
        let (used, unused): (Vec<&Record>, Vec<&Record>) =
            table.iter().partition(|record| record.used);
        for record in &used {
            let state = rust_state(&record.state, area.share(record.area));
            let handler =
                SdoSequenceHandler::lent(record.client, state, record.send, record.receive);
            server.connections_mut().insert(record.client, handler);
        }
        Self {
            server,
            used: used.iter().map(|r| (r.client, r.area)).collect(),
            unused: unused.iter().map(|r| r.area).collect(),
        }
    }

    /// The server's connections as records, and the unused ones after them.
    pub fn table(&self) -> Table {
        let mut rest = self.unused.iter();
        let mut connections = self.server.connections().iter();
        core::array::from_fn(|_| match connections.next() {
            Some((&client, handler)) => Record {
                used: true,
                client,
                area: self.used[&client],
                send: handler.next_send_sequence(),
                receive: handler.current_receive_sequence(),
                state: record_state(handler.state()),
            },
            None => Record::unused(*rest.next().expect("eight numbers in all")),
        })
    }

    /// Whether there is a record for this client, or a free one.
    pub fn has_room(&self, client: &SdoClientInfo) -> bool {
        self.used.contains_key(client) || !self.unused.is_empty()
    }

    pub fn deadline(&self) -> Option<u64> {
        self.server.next_action_time()
    }

    pub fn tick(
        &mut self,
        clock: u64,
        od: &ObjectDictionary,
    ) -> Result<Option<SdoResponseData>, PowerlinkError> {
        let answer = self.server.tick(clock, od);
        self.drop_gone();
        answer
    }

    /// A request for which there is room.
    pub fn request(
        &mut self,
        bytes: &[u8],
        client: SdoClientInfo,
        od: &mut ObjectDictionary,
        area: &mut Area,
        clock: u64,
    ) -> Result<SdoResponseData, PowerlinkError> {
        if bytes.len() < 4 {
            // The Rust looks at nothing then, and the client does not join.
            return self.server.handle_request(bytes, client, od, clock);
        }
        let number = self.join(client);
        let before = self.server.connections().get(&client);
        let uploading = before.is_some_and(|handler| upload(handler).is_some());
        let command = dispatched(before, client, bytes);
        let data = command.as_ref().and_then(|c| data_to_store(before, c));
        let (asked, code) = within_domain(bytes, command.as_ref());

        let mut answer = self.server.handle_request(&asked, client, od, clock);

        if let (Some(code), Ok(answer)) = (code, &mut answer) {
            assert_eq!(answer.command.payload, LENGTH.to_le_bytes());
            answer.command.payload = code.to_le_bytes().to_vec();
        }
        if let (Some(command), Ok(answer)) = (&command, &answer) {
            check_stored(command, data.is_some(), answer.command.header.is_aborted);
        }
        if let Some((offset, data)) = data {
            area.store(number, offset, data);
        }
        let after = self.server.connections().get(&client);
        if let (false, Some(transfer)) = (uploading, after.and_then(upload)) {
            // The copy at an upload's begin.
            area.store(number, 0, transfer.data());
        }
        self.drop_gone();
        answer
    }

    /// The client's area number; a joining one takes the first unused.
    fn join(&mut self, client: SdoClientInfo) -> u8 {
        *self
            .used
            .entry(client)
            .or_insert_with(|| self.unused.pop_front().expect("there is room"))
    }

    /// The numbers of dropped records go to the last unused one, several in
    /// client order.
    fn drop_gone(&mut self) {
        let held = self.server.connections();
        self.used.retain(|client, number| {
            let stays = held.contains_key(client);
            if !stays {
                self.unused.push_back(*number);
            }
            stays
        });
    }

    /// What the port's records lean on: the share holds the Rust's copy, and
    /// the bytes before the offset are the stored piece.
    pub fn check(&self, area: &Area) {
        for (client, handler) in self.server.connections() {
            let Some(transfer) = upload(handler) else {
                continue;
            };
            let share = area.share(self.used[client]);
            assert_eq!(transfer.data(), &share[..transfer.data().len()]);
            let record = transfer.record();
            if let Some(stored) = transfer.stored() {
                assert_eq!(stored, &piece_before(&record, share));
            }
        }
    }
}
