//! A client that sends what it likes.

use formats::client::Client;
use formats::datagram::{self, Nodes};
use std::net::{SocketAddr, UdpSocket};
use std::time::Duration;

/// Longer than any answer takes on a slow machine.
const LONG: Duration = Duration::from_secs(20);

/// Enough for an answer that was sent already.
const SHORT: Duration = Duration::from_millis(10);

const NODES: Nodes = Nodes { to: 17, from: 99 };

pub struct Caller {
    socket: UdpSocket,
    client: Client,
    /// Every answer that came, from the sequence header on.
    pub heard: Vec<Vec<u8>>,
}

impl Caller {
    pub fn new(server: SocketAddr) -> Caller {
        let socket = UdpSocket::bind(("127.0.0.1", 0)).unwrap();
        socket.connect(server).unwrap();
        let SocketAddr::V4(local) = socket.local_addr().unwrap() else {
            panic!("no IPv4 address");
        };
        Caller {
            socket,
            client: Client::from(local),
            heard: Vec::new(),
        }
    }

    /// Who it is to the server.
    pub fn client(&self) -> Client {
        self.client
    }

    /// Sends a frame behind the four bytes.
    pub fn send(&self, frame: &[u8]) {
        self.send_raw(&datagram::wrap(NODES, frame));
    }

    /// Sends any datagram; a server that is not there is no fault here.
    pub fn send_raw(&self, datagram: &[u8]) {
        let _ = self.socket.send(datagram);
    }

    /// The next answer, if one comes.
    pub fn hear(&mut self) -> Option<Vec<u8>> {
        self.hear_within(LONG)
    }

    /// An answer that must have been sent by now.
    pub fn hear_now(&mut self) -> Option<Vec<u8>> {
        self.hear_within(SHORT)
    }

    fn hear_within(&mut self, time: Duration) -> Option<Vec<u8>> {
        self.socket.set_read_timeout(Some(time)).unwrap();
        let mut buffer = [0; datagram::MOST_DATAGRAM];
        let length = self.socket.recv(&mut buffer).ok()?;
        let (nodes, frame) = datagram::open(&buffer[..length]).expect("an SDO datagram");
        assert_eq!(nodes, NODES.swapped());
        self.heard.push(frame.to_vec());
        Some(frame.to_vec())
    }

    pub fn ask(&mut self, frame: &[u8]) -> Option<Vec<u8>> {
        self.send(frame);
        self.hear()
    }

    /// Asks for what is always answered: all that was sent before is then served.
    pub fn settle(&mut self) {
        self.ask(&[3, 0, 0, 0])
            .expect("an error response is answered");
    }
}
