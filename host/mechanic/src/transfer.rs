//! A read or a write from handshake to end, begun again where it must be.

use crate::connection::{Connection, Trouble};
use crate::link::Link;
use crate::told;
use crate::words::{Patience, Settings, Task};
use formats::file;
use formats::frame::{Command, Segmentation, MOST_WRITTEN};
use formats::object::Object;
use std::net::SocketAddrV4;

struct Transfer {
    link: Link,
    object: Object,
    server: SocketAddrV4,
    patience: Patience,
}

pub fn run(settings: Settings) -> Result<(), String> {
    let server = settings.server;
    let link = Link::new(server, settings.faults, settings.frames)
        .map_err(|error| format!("{server} cannot be reached: {error}"))?;
    let mut transfer = Transfer {
        link,
        object: settings.object,
        server,
        patience: settings.patience,
    };
    match settings.task {
        Task::Read { to } => {
            let value = transfer.begin("reads", |transfer, number| transfer.read(number))?;
            if let Some(to) = to {
                file::write_whole(&to, &value)?;
            }
            transfer.end("read", &value);
        }
        Task::Write { data } => {
            check_length(&data)?;
            transfer.begin("writes", |transfer, number| transfer.write(number, &data))?;
            transfer.end("wrote", &data);
        }
    }
    Ok(())
}

fn check_length(data: &[u8]) -> Result<(), String> {
    match data.len() <= MOST_WRITTEN {
        true => Ok(()),
        false => Err(format!(
            "{} bytes cannot be written: this server closes the connection when a write in \
             pieces begins, and one frame holds {MOST_WRITTEN} bytes of data",
            data.len()
        )),
    }
}

impl Transfer {
    /// Begins the transfer, and again where it broke, under another transaction
    /// each time, so that late frames of the one before are told apart.
    fn begin<T>(
        &mut self,
        does: &str,
        once: impl Fn(&mut Transfer, u8) -> Result<T, Trouble>,
    ) -> Result<T, String> {
        if let Ok(local) = self.link.local() {
            let (object, server) = (self.object, self.server);
            eprintln!("mechanic: {local} {does} {object} at {server}");
        }
        let mut broke = String::new();
        for number in 1..=self.patience.attempts {
            match once(self, number) {
                Ok(done) => return Ok(done),
                Err(trouble) => broke = self.may_go_on(trouble)?,
            }
            eprintln!("mechanic: {broke}");
        }
        Err(format!(
            "given up after {} attempts: {broke}",
            self.patience.attempts
        ))
    }

    /// Why the transfer broke, if it can be begun again; else the failure.
    fn may_go_on(&self, trouble: Trouble) -> Result<String, String> {
        let server = self.server;
        match trouble {
            Trouble::Aborted(code) if code.is_passing() => Ok(format!("aborted, {code}")),
            Trouble::Silent => Ok("no answer within the retries".to_string()),
            Trouble::NoConnection => Ok("the server has closed the connection".to_string()),
            Trouble::Pieces(told) => Ok(told),
            Trouble::Aborted(code) => Err(format!("{} aborted, {code}", self.object)),
            Trouble::Line(error) => Err(format!("{server}: {error}")),
            Trouble::Unanswered if self.link.refused => {
                Err(format!("no answer from {server}: nobody listens there"))
            }
            Trouble::Unanswered => Err(format!(
                "no answer from {server} to the handshake (a server with eight clients answers no other)"
            )),
        }
    }

    fn read(&mut self, transaction: u8) -> Result<Vec<u8>, Trouble> {
        let command = Command::read(transaction, self.object);
        let mut connection = Connection::open(&mut self.link, self.patience, command)?;
        let read = pieces(&mut connection);
        closed(&mut connection, &read)?;
        read
    }

    fn write(&mut self, transaction: u8, data: &[u8]) -> Result<(), Trouble> {
        let command = Command::write(transaction, self.object, data);
        let mut connection = Connection::open(&mut self.link, self.patience, command)?;
        let written = connection.ask().map(|_| ());
        closed(&mut connection, &written)?;
        written
    }

    fn end(&self, did: &str, value: &[u8]) {
        let lost = match self.link.lost {
            0 => String::new(),
            1 => " (1 frame was lost)".to_string(),
            lost => format!(" ({lost} frames were lost)"),
        };
        println!("{did} {}: {}{lost}", self.object, told::value(value));
    }
}

/// Leaves no transfer behind at the server where ours broke.
fn closed<T>(connection: &mut Connection, done: &Result<T, Trouble>) -> Result<(), Trouble> {
    match done {
        Err(Trouble::Silent | Trouble::NoConnection | Trouble::Pieces(_)) => connection.abort(),
        _ => Ok(()),
    }
}

/// The value in one answer, or in pieces that add up to the announced size.
///
/// A piece is taken only under the number after the last one's. So none is taken
/// twice or out of order, and if all of them add up, none is missing.
fn pieces(connection: &mut Connection) -> Result<Vec<u8>, Trouble> {
    let first = connection.ask()?;
    let total = match (first.segmentation, first.total) {
        (Segmentation::Expedited, _) => return Ok(first.payload),
        (_, Some(total)) => total as usize,
        (_, None) => return Err(Trouble::Pieces("the first piece is missing".to_string())),
    };
    let mut value = first.payload;
    let mut complete = false;
    while !complete && value.len() < total {
        told::progress(value.len(), total);
        let piece = connection.acknowledge()?;
        complete = piece.segmentation == Segmentation::Complete;
        value.extend(piece.payload);
    }
    if !complete || value.len() != total {
        let told = format!("pieces of {} bytes, {total} were announced", value.len());
        return Err(Trouble::Pieces(told));
    }
    told::progress(total, total);
    Ok(value)
}
