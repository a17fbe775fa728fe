//! What is done with a datagram and with a millisecond that has passed: each
//! call is recorded, then made.

use crate::counts::Counts;
use crate::overwrite::Overwrite;
use crate::recording::Recording;
use formats::client::Client;
use formats::datagram::{self, Nodes};
use formats::frame::Frame;
use formats::record::RECORDS;
use formats::script;
use sdo::{Answered, Server, ANSWER_SIZE};
use std::collections::HashMap;
use std::net::SocketAddrV4;

pub struct Service {
    server: Server,
    image: Vec<u8>,
    answer: [u8; ANSWER_SIZE],
    recording: Recording,
    /// The node bytes of each connected client's last datagram.
    nodes: HashMap<Client, Nodes>,
    pub counts: Counts,
}

/// A datagram to be sent.
pub struct Outgoing {
    pub to: SocketAddrV4,
    pub bytes: Vec<u8>,
}

impl Service {
    /// The recording begins with the image.
    pub fn new(image: Vec<u8>, mut recording: Recording) -> Result<Service, String> {
        recording.add(&script::image(&image))?;
        Ok(Service {
            server: Server::new(),
            image,
            answer: [0; ANSWER_SIZE],
            recording,
            nodes: HashMap::new(),
            counts: Counts::default(),
        })
    }

    pub fn recording(&self) -> &Recording {
        &self.recording
    }

    /// Serves a datagram; what is no SDO datagram is counted and forgotten.
    pub fn datagram(
        &mut self,
        from: SocketAddrV4,
        datagram: &[u8],
        clock: u64,
    ) -> Result<Option<Outgoing>, String> {
        let Some((nodes, request)) = datagram::open(datagram) else {
            self.counts.junk += 1;
            return Ok(None);
        };
        let client = Client::from(from);
        self.recording
            .add(&script::request(client, clock, request))?;
        self.counts.requests += 1;
        let (image, answer) = (&mut self.image, &mut self.answer);
        let served = self
            .server
            .handle_request(image, answer, client, clock, request);
        self.nodes.insert(client, nodes);
        let outgoing = match served {
            Ok(answered) => self.outgoing(answered),
            Err(refusal) => {
                self.counts.refused(refusal);
                None
            }
        };
        self.forget_nodes();
        Ok(outgoing)
    }

    /// Ticks as long as a tick has something to do, and at most once for each
    /// place in the table: a timeout of 0 would make a client due for ever.
    pub fn tick(&mut self, clock: u64) -> Result<Vec<Outgoing>, String> {
        let mut outgoing = Vec::new();
        for _ in 0..RECORDS {
            if !self.server.tick_matters(clock) {
                break;
            }
            self.recording.add(&script::tick(clock))?;
            match self.server.tick(&self.image, &mut self.answer, clock) {
                Ok(answered) => {
                    outgoing.extend(answered.and_then(|answered| self.outgoing(answered)))
                }
                Err(refusal) => self.counts.refused(refusal),
            }
            self.forget_nodes();
        }
        Ok(outgoing)
    }

    /// Lends a changed image from here on.
    pub fn overwrite(&mut self, overwrite: &Overwrite) -> Result<(), String> {
        let Some(changed) = overwrite.changed(&self.image) else {
            return Err(format!("the image has no object {}", overwrite.object));
        };
        self.recording.add(&script::image(&changed))?;
        self.image = changed;
        Ok(())
    }

    /// The answer's datagram: it goes to the node that the request came from.
    fn outgoing(&mut self, answered: Answered) -> Option<Outgoing> {
        let Answered { client, length } = answered;
        let frame = &self.answer[..length];
        self.counts.answers += 1;
        let command = Frame::from_bytes(frame).and_then(|frame| frame.command);
        self.counts.uploads += u64::from(command.is_some_and(|command| command.finishes_upload()));
        let nodes = self.nodes.get(&client).copied().unwrap_or_default();
        match client {
            Client::Udp { address, port } => Some(Outgoing {
                to: SocketAddrV4::new(address, port),
                bytes: datagram::wrap(nodes.swapped(), frame),
            }),
            Client::Asnd { .. } => None,
        }
    }

    /// Keeps the node bytes of connected clients alone.
    fn forget_nodes(&mut self) {
        let connected: Vec<Client> = self
            .server
            .connected()
            .map(|record| record.client)
            .collect();
        self.nodes.retain(|client, _| connected.contains(client));
        self.counts.clients = connected.len();
    }
}
