//! The bench from its start to Ctrl-C.

use crate::overwrite::Overwrite;
use crate::recording::Recording;
use crate::service::{Outgoing, Service};
use crate::status::Status;
use crate::system;
use crate::words::Settings;
use formats::datagram::MOST_DATAGRAM;
use formats::{dictionary, file};
use std::io::{self, ErrorKind, Write};
use std::net::{SocketAddr, UdpSocket};
use std::time::{Duration, Instant};

const MILLISECOND: Duration = Duration::from_millis(1);

/// Datagrams taken in a row before the clock is looked at again.
const IN_A_ROW: usize = 64;

struct Bench {
    socket: UdpSocket,
    service: Service,
    start: Instant,
    next_tick: Instant,
    overwrite: Option<(Overwrite, Instant)>,
    status: Status,
}

pub fn run(settings: &Settings) -> Result<(), String> {
    system::end_on_signals();
    let mut bench = Bench::start(settings)?;
    let ended = bench.serve();
    bench.status.end();
    bench.summary();
    ended
}

/// A line for people and scripts; nobody may be reading any more.
fn say(line: &str) {
    let _ = writeln!(io::stdout(), "{line}").and_then(|()| io::stdout().flush());
}

impl Bench {
    fn start(settings: &Settings) -> Result<Bench, String> {
        let image = file::read(&settings.image)?;
        let path = settings.image.display();
        let entries = dictionary::decode(&image)
            .map_err(|unsound| format!("{path} is no sound dictionary image: {unsound}"))?;
        if let Some(overwrite) = &settings.overwrite {
            overwrite
                .changed(&image)
                .ok_or_else(|| format!("{path} has no object {}", overwrite.object))?;
        }
        let (socket, address) = bound(settings)?;
        let recording = Recording::create(&settings.record, settings.force)?;
        say(&format!("bench: listening on {address}"));
        say(&format!(
            "bench: {} objects from {path}, recording to {}; Ctrl-C ends",
            entries.len(),
            settings.record.display()
        ));
        let now = Instant::now();
        Ok(Bench {
            socket,
            service: Service::new(image, recording)?,
            start: now,
            next_tick: now,
            overwrite: settings.overwrite.map(|overwrite| (overwrite, now)),
            status: Status::new(),
        })
    }

    /// Until a signal, or until a call cannot be recorded.
    fn serve(&mut self) -> Result<(), String> {
        let mut buffer = vec![0; MOST_DATAGRAM];
        while !system::is_ended() {
            let due = self.next_tick.saturating_duration_since(Instant::now());
            if !due.is_zero() {
                system::wait(&self.socket, due);
            }
            self.receive(&mut buffer)?;
            self.tick()?;
            self.overwrite()?;
            self.status.show(&self.service.counts);
        }
        Ok(())
    }

    /// Microseconds since the start.
    fn clock(&self) -> u64 {
        self.start.elapsed().as_micros() as u64
    }

    fn receive(&mut self, buffer: &mut [u8]) -> Result<(), String> {
        for _ in 0..IN_A_ROW {
            let (length, from) = match self.socket.recv_from(buffer) {
                Ok((length, SocketAddr::V4(from))) => (length, from),
                Ok(_) => continue,
                Err(error) if error.kind() == ErrorKind::WouldBlock => break,
                // A datagram of ours that met nobody, or a signal.
                Err(_) => continue,
            };
            let clock = self.clock();
            let outgoing = self.service.datagram(from, &buffer[..length], clock)?;
            self.send(outgoing);
        }
        Ok(())
    }

    fn tick(&mut self) -> Result<(), String> {
        let now = Instant::now();
        if now < self.next_tick {
            return Ok(());
        }
        let next = self.next_tick + MILLISECOND;
        self.next_tick = if next < now { now + MILLISECOND } else { next };
        let clock = self.clock();
        let outgoing = self.service.tick(clock)?;
        self.send(outgoing);
        Ok(())
    }

    fn overwrite(&mut self) -> Result<(), String> {
        let Some((overwrite, next)) = &mut self.overwrite else {
            return Ok(());
        };
        let now = Instant::now();
        if now < *next {
            return Ok(());
        }
        *next = now + Duration::from_millis(overwrite.every);
        self.service.overwrite(overwrite)
    }

    fn send(&mut self, outgoing: impl IntoIterator<Item = Outgoing>) {
        for Outgoing { to, bytes } in outgoing {
            if self.socket.send_to(&bytes, to).is_err() {
                self.service.counts.unsent += 1;
            }
        }
    }

    fn summary(&self) {
        say(&format!("bench: ended; {}", self.service.counts));
        for (refusal, count) in self.service.counts.refusals() {
            say(&format!("bench: refused {count} times with {refusal}"));
        }
        let recording = self.service.recording();
        say(&format!(
            "bench: recording {}, {} bytes",
            recording.path().display(),
            recording.length()
        ));
    }
}

fn bound(settings: &Settings) -> Result<(UdpSocket, SocketAddr), String> {
    let wanted = settings.address;
    let socket = UdpSocket::bind(wanted)
        .map_err(|error| format!("{wanted} cannot be listened at: {error}"))?;
    socket
        .set_nonblocking(true)
        .and_then(|()| socket.local_addr())
        .map(|address| (socket, address))
        .map_err(|error| format!("{wanted}: {error}"))
}
