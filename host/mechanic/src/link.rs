//! The line to the server: frames go out and come in, spoilt as is asked.

use crate::faults::{Fate, Faults};
use crate::told;
use formats::datagram::{self, Nodes, MOST_DATAGRAM};
use formats::frame::Frame;
use std::io::{self, ErrorKind};
use std::net::{SocketAddr, SocketAddrV4, UdpSocket};
use std::time::{Duration, Instant};

/// The nodes of our datagrams: a diagnostic device asks the first node.
const NODES: Nodes = Nodes { to: 1, from: 253 };

pub struct Link {
    socket: UdpSocket,
    faults: Faults,
    frames: bool,
    /// Frames that are held back, with the time at which they go out.
    held: Vec<(Instant, Vec<u8>)>,
    sent: u64,
    heard: u64,
    /// Frames that were lost, both ways.
    pub lost: u64,
    /// Whether the server's machine said that nobody listens there.
    pub refused: bool,
}

impl Link {
    pub fn new(server: SocketAddrV4, faults: Faults, frames: bool) -> io::Result<Link> {
        let socket = UdpSocket::bind((std::net::Ipv4Addr::UNSPECIFIED, 0))?;
        socket.connect(server)?;
        Ok(Link {
            socket,
            faults,
            frames,
            held: Vec::new(),
            sent: 0,
            heard: 0,
            lost: 0,
            refused: false,
        })
    }

    pub fn local(&self) -> io::Result<SocketAddr> {
        self.socket.local_addr()
    }

    pub fn send(&mut self, frame: &Frame) -> io::Result<()> {
        self.sent += 1;
        let fate = self.faults.fate(self.sent);
        if self.frames {
            told::sent(self.sent, frame, fate);
        }
        let datagram = datagram::wrap(NODES, &frame.to_bytes());
        match fate {
            Fate::Lost => self.lost += 1,
            Fate::Sent => self.put(&datagram)?,
            Fate::Twice => {
                self.put(&datagram)?;
                self.put(&datagram)?;
            }
            Fate::Late(delay) => self.held.push((Instant::now() + delay, datagram)),
        }
        Ok(())
    }

    /// The next frame that comes before the time is over; what is no frame is
    /// passed by.
    pub fn receive(&mut self, until: Instant) -> io::Result<Option<Frame>> {
        let mut buffer = [0; MOST_DATAGRAM];
        loop {
            self.release()?;
            let now = Instant::now();
            if now >= until {
                return Ok(None);
            }
            let next = self
                .held
                .iter()
                .map(|&(due, _)| due)
                .fold(until, Instant::min);
            let wait = next.duration_since(now).max(Duration::from_millis(1));
            self.socket.set_read_timeout(Some(wait))?;
            let length = match self.socket.recv(&mut buffer) {
                Ok(length) => length,
                Err(error) => {
                    self.pass(error)?;
                    continue;
                }
            };
            if let Some(frame) = self.taken(&buffer[..length]) {
                return Ok(Some(frame));
            }
        }
    }

    /// The frame of a datagram, unless it is none or is to be lost.
    fn taken(&mut self, datagram: &[u8]) -> Option<Frame> {
        let frame = Frame::from_bytes(datagram::open(datagram)?.1)?;
        self.heard += 1;
        let lost = self.faults.loses_answer(self.heard);
        if self.frames {
            told::heard(self.heard, &frame, lost);
        }
        self.lost += u64::from(lost);
        (!lost).then_some(frame)
    }

    /// Sends the frames that were held back long enough.
    fn release(&mut self) -> io::Result<()> {
        let now = Instant::now();
        let (due, held) = self.held.drain(..).partition(|&(due, _)| due <= now);
        self.held = held;
        let due: Vec<(Instant, Vec<u8>)> = due;
        due.iter().try_for_each(|(_, datagram)| self.put(datagram))
    }

    fn put(&mut self, datagram: &[u8]) -> io::Result<()> {
        match self.socket.send(datagram) {
            Ok(_) => Ok(()),
            Err(error) => self.pass(error),
        }
    }

    /// Passes by what is no fault of ours: an interrupted wait, the time being
    /// over, or word that nobody listens there.
    fn pass(&mut self, error: io::Error) -> io::Result<()> {
        match error.kind() {
            ErrorKind::WouldBlock | ErrorKind::TimedOut | ErrorKind::Interrupted => Ok(()),
            ErrorKind::ConnectionRefused => {
                self.refused = true;
                Ok(())
            }
            _ => Err(error),
        }
    }
}
