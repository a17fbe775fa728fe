//! A connection of the sequence layer: every frame of ours has a number of its
//! own, and an answer that does not come is asked for by an error response.
//!
//! The server answers an error response in each of its states so that the client
//! learns what became of its last frame: the piece that the server holds comes
//! again; a bare Nil under valid marks says that the frame did not arrive; one
//! without marks says that there is no connection any more.

use crate::link::Link;
use crate::words::Patience;
use formats::abort::AbortCode;
use formats::frame::{
    id, next_number, Command, Frame, Header, ReceiveMark, Segmentation, SendMark,
};
use std::io;
use std::time::Instant;

/// How often our own abort is sent before we go on without its answer.
const ABORTS: u32 = 6;

/// Why a transfer did not come to its end.
#[derive(Debug)]
pub enum Trouble {
    /// The handshake was never answered.
    Unanswered,
    /// Frames of the transfer were not answered.
    Silent,
    /// The server has no such connection any more.
    NoConnection,
    /// The pieces do not fit together.
    Pieces(String),
    Aborted(AbortCode),
    Line(io::Error),
}

impl From<io::Error> for Trouble {
    fn from(error: io::Error) -> Trouble {
        Trouble::Line(error)
    }
}

/// What a frame of the server means to us.
#[derive(Debug, PartialEq, Eq)]
enum Heard {
    /// The answer to our last frame.
    Answer,
    /// The piece before, again: our last frame did not arrive.
    Again,
    /// The server holds no piece: our last frame did not arrive.
    NotArrived,
    NoConnection,
    Aborted(AbortCode),
    /// A late copy of something, or nothing to do with us.
    Other,
}

pub struct Connection<'a> {
    link: &'a mut Link,
    patience: Patience,
    /// The command that the connection is opened for.
    command: Command,
    /// The number of our last frame.
    number: u8,
    /// The number of the server's last frame that was taken.
    taken: u8,
    /// Whether an error response of ours is not answered yet.
    asked: bool,
}

impl<'a> Connection<'a> {
    pub fn open(
        link: &'a mut Link,
        patience: Patience,
        command: Command,
    ) -> Result<Connection<'a>, Trouble> {
        let mut connection = Connection {
            link,
            patience,
            command,
            number: 0,
            taken: 0,
            asked: false,
        };
        for turn in 0..=patience.retries {
            if turn > 0 {
                connection.clear(turn)?;
            }
            connection.send(ReceiveMark::None, SendMark::Initialization, None)?;
            let until = Instant::now() + patience.timeout;
            while let Some(frame) = connection.link.receive(until)? {
                if is_handshake(&frame.header) {
                    connection.taken = frame.header.send;
                    return Ok(connection);
                }
            }
        }
        Err(Trouble::Unanswered)
    }

    /// An abort before the next handshake, which is answered only to a client
    /// without a connection: a handshake whose answer was lost has left one, and a
    /// late copy of a command may have. The first takes any number, the second its
    /// last or next; so every second number is tried, from 0 on.
    fn clear(&mut self, turn: u32) -> Result<(), Trouble> {
        let abort = self.command.abort(AbortCode::TIMED_OUT);
        self.number = (2 * (turn - 1) % 64) as u8;
        self.send(ReceiveMark::Valid, SendMark::Valid, Some(abort))?;
        self.number = 0;
        Ok(())
    }

    /// Sends the command that the connection was opened for.
    pub fn ask(&mut self) -> Result<Command, Trouble> {
        self.exchange(Some(self.command.clone()))
    }

    /// Acknowledges the last piece, which asks for the next.
    pub fn acknowledge(&mut self) -> Result<Command, Trouble> {
        self.exchange(None)
    }

    /// Aborts the transfer, so that the server is ready for another handshake. The
    /// number of our last frame is the server's last or next, unless a late copy
    /// has moved it on by one: so the two are tried in turn.
    pub fn abort(&mut self) -> Result<(), Trouble> {
        let abort = self.command.abort(AbortCode::TIMED_OUT);
        let last = self.number;
        for turn in 0..ABORTS {
            self.number = if turn % 2 == 0 {
                last
            } else {
                next_number(last)
            };
            self.send(ReceiveMark::Valid, SendMark::Valid, Some(abort.clone()))?;
            let until = Instant::now() + self.patience.timeout;
            while let Some(frame) = self.link.receive(until)? {
                if frame.command.is_some_and(|command| command.aborted) {
                    return Ok(());
                }
            }
        }
        Ok(())
    }

    fn send(
        &mut self,
        receive_mark: ReceiveMark,
        send_mark: SendMark,
        command: Option<Command>,
    ) -> Result<(), Trouble> {
        let header = Header {
            receive: self.taken,
            receive_mark,
            send: self.number,
            send_mark,
        };
        Ok(self.link.send(&Frame { header, command })?)
    }

    fn exchange(&mut self, command: Option<Command>) -> Result<Command, Trouble> {
        self.number = next_number(self.number);
        self.send(ReceiveMark::Valid, SendMark::Valid, command.clone())?;
        let mut retries = self.patience.retries;
        let mut until = Instant::now() + self.patience.timeout;
        loop {
            match self.link.receive(until)? {
                Some(frame) => {
                    if let Some(answer) = self.hear(frame, command.as_ref())? {
                        return Ok(answer);
                    }
                }
                None if retries == 0 => return Err(Trouble::Silent),
                None => {
                    retries -= 1;
                    self.asked = true;
                    self.send(ReceiveMark::ErrorResponse, SendMark::Valid, None)?;
                    until = Instant::now() + self.patience.timeout;
                }
            }
        }
    }

    /// The answer, if the frame is it; a frame of ours that did not arrive is
    /// sent once more.
    fn hear(&mut self, frame: Frame, ours: Option<&Command>) -> Result<Option<Command>, Trouble> {
        match self.judge(&frame) {
            Heard::Answer => {
                self.taken = frame.header.send;
                self.asked = false;
                return Ok(frame.command);
            }
            Heard::Again => {
                self.asked = false;
                self.send(ReceiveMark::Valid, SendMark::Valid, ours.cloned())?;
            }
            Heard::NotArrived => {
                self.asked = false;
                self.taken = frame.header.send;
                self.number = next_number(self.number);
                self.send(ReceiveMark::Valid, SendMark::Valid, ours.cloned())?;
            }
            Heard::NoConnection => {
                // The number that our own abort is taken under, if the server
                // has begun a transfer outside a connection.
                self.number = frame.header.receive;
                return Err(Trouble::NoConnection);
            }
            Heard::Aborted(code) => return Err(Trouble::Aborted(code)),
            Heard::Other => {}
        }
        Ok(None)
    }

    fn judge(&self, frame: &Frame) -> Heard {
        let (header, Some(command)) = (&frame.header, &frame.command) else {
            return Heard::Other;
        };
        let ours = command.response && command.transaction == self.command.transaction;
        let to_last = header.receive == self.number && self.asked;
        if ours && command.aborted {
            Heard::Aborted(command.abort_code())
        } else if ours && command.segmentation == Segmentation::Expedited {
            Heard::Answer
        } else if ours && command.id == id::READ_BY_INDEX {
            match is_valid(header) {
                false => Heard::NoConnection,
                true if header.send == next_number(self.taken) => Heard::Answer,
                true if header.send == self.taken && is_again(header) && to_last => Heard::Again,
                true => Heard::Other,
            }
        } else if is_bare(command) && to_last {
            match is_valid(header) {
                true => Heard::NotArrived,
                false => Heard::NoConnection,
            }
        } else {
            Heard::Other
        }
    }
}

fn is_handshake(header: &Header) -> bool {
    header.receive_mark == ReceiveMark::Initialization
        && header.send_mark == SendMark::Initialization
}

fn is_valid(header: &Header) -> bool {
    header.receive_mark == ReceiveMark::Valid
        && matches!(header.send_mark, SendMark::Valid | SendMark::Acknowledge)
}

fn is_again(header: &Header) -> bool {
    header.send_mark == SendMark::Acknowledge
}

/// The Nil that answers an error response where no piece is held.
fn is_bare(command: &Command) -> bool {
    *command == Command::request(0, id::NIL, Vec::new())
}
