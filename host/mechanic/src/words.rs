//! The words that mechanic is started with.

use crate::faults::Faults;
use formats::args::{counts, Args};
use formats::datagram::PORT;
use formats::object::Object;
use formats::{file, hex};
use std::net::{SocketAddr, SocketAddrV4, ToSocketAddrs};
use std::path::PathBuf;
use std::time::Duration;

pub const USAGE: &str = "usage: mechanic read INDEX:SUB [-o FILE] [OPTION...]
       mechanic write INDEX:SUB --hex BYTES | --text TEXT | --file FILE [OPTION...]
  INDEX:SUB          the object, hexadecimal, as 2110:0
  -o FILE            where the bytes that were read go
  --server ADDRESS   the server, with or without a port (127.0.0.1:3819)
  --timeout MS       how long an answer is waited for (500)
  --retries N        how often a frame is asked for again (5)
  --attempts N       how often the transfer is begun, at most 255 (5)
  --frames           show every frame
spoiling the line; frames are counted from 1:
  --lose N,M..       these answers are lost
  --lose-sent N,M..  these frames of ours are lost
  --lose-rate P      P of 100 frames are lost, both ways
  --seed S           which ones are lost by --lose-rate (1)
  --repeat N,M..     these frames of ours are sent twice
  --delay N,M..:MS   these frames of ours are held back for so long
exit status: 0 read or written whole, 1 failed, 2 wrong words";

pub enum Task {
    Read { to: Option<PathBuf> },
    Write { data: Vec<u8> },
}

/// How long and how often an answer is waited for.
#[derive(Debug, Clone, Copy)]
pub struct Patience {
    pub timeout: Duration,
    pub retries: u32,
    pub attempts: u8,
}

pub struct Settings {
    pub task: Task,
    pub object: Object,
    pub server: SocketAddrV4,
    pub patience: Patience,
    pub faults: Faults,
    pub frames: bool,
}

/// The words as they are met.
struct Words {
    to: Option<PathBuf>,
    data: Option<Vec<u8>>,
    server: SocketAddrV4,
    patience: Patience,
    faults: Faults,
    frames: bool,
}

pub fn settings(mut args: Args) -> Result<Settings, String> {
    let task = args.next().ok_or("nothing to do")?;
    if !["read", "write"].contains(&task.as_str()) {
        return Err(format!("no such task: '{task}'"));
    }
    let object = args.value(&task)?.parse()?;
    let mut words = Words::new();
    while let Some(word) = args.next() {
        words.take(&word, &mut args)?;
    }
    let task = match (task.as_str(), words.data, words.to) {
        ("read", None, to) => Task::Read { to },
        ("read", Some(_), _) => return Err("read takes no data".to_string()),
        (_, Some(data), None) => Task::Write { data },
        (_, Some(_), Some(_)) => return Err("write takes no -o".to_string()),
        (_, None, _) => return Err("write needs --hex, --text or --file".to_string()),
    };
    Ok(Settings {
        task,
        object,
        server: words.server,
        patience: words.patience,
        faults: words.faults,
        frames: words.frames,
    })
}

impl Words {
    fn new() -> Words {
        Words {
            to: None,
            data: None,
            server: SocketAddrV4::new([127, 0, 0, 1].into(), PORT),
            patience: Patience {
                timeout: Duration::from_millis(500),
                retries: 5,
                attempts: 5,
            },
            faults: Faults::default(),
            frames: false,
        }
    }

    fn take(&mut self, word: &str, args: &mut Args) -> Result<(), String> {
        match word {
            "-o" => self.to = Some(args.value(word)?.into()),
            "--hex" => self.data = Some(hex_data(&args.value(word)?)?),
            "--text" => self.data = Some(args.value(word)?.into_bytes()),
            "--file" => self.data = Some(file::read(args.value(word)?.as_ref())?),
            "--server" => self.server = server(&args.value(word)?)?,
            "--frames" => self.frames = true,
            "--timeout" => {
                let milliseconds = args.parsed::<u32>(word, "milliseconds")?;
                self.patience.timeout = Duration::from_millis(milliseconds.max(1).into());
            }
            "--retries" => self.patience.retries = args.parsed(word, "a number")?,
            "--attempts" => {
                let attempts: u8 = args.parsed(word, "a number of 1 to 255")?;
                self.patience.attempts = attempts.max(1);
            }
            _ => self.spoil(word, args)?,
        }
        Ok(())
    }

    fn spoil(&mut self, word: &str, args: &mut Args) -> Result<(), String> {
        let faults = &mut self.faults;
        match word {
            "--lose" => faults.answers_lost = counted(word, args)?,
            "--lose-sent" => faults.sent_lost = counted(word, args)?,
            "--repeat" => faults.repeated = counted(word, args)?,
            "--delay" => {
                let value = args.value(word)?;
                let (frames, delay) = delayed(&value)
                    .ok_or_else(|| format!("{word} needs N,M..:MS, not '{value}'"))?;
                faults.delayed = frames;
                faults.delay = delay;
            }
            "--lose-rate" => {
                let rate = args.parsed::<u8>(word, "a number of 0 to 100")?;
                faults.rate = Some(rate)
                    .filter(|rate| *rate <= 100)
                    .ok_or_else(|| format!("{word} needs a number of 0 to 100, not '{rate}'"))?;
            }
            "--seed" => faults.seed(args.parsed(word, "a number")?),
            _ => return Err(format!("no such option: '{word}'")),
        }
        Ok(())
    }
}

fn counted(word: &str, args: &mut Args) -> Result<Vec<u64>, String> {
    let value = args.value(word)?;
    counts(&value).ok_or_else(|| format!("{word} needs numbers from 1 on, as 3,14, not '{value}'"))
}

fn delayed(value: &str) -> Option<(Vec<u64>, Duration)> {
    let (frames, milliseconds) = value.split_once(':')?;
    let delay = Duration::from_millis(milliseconds.parse::<u32>().ok()?.into());
    Some((counts(frames)?, delay))
}

fn hex_data(text: &str) -> Result<Vec<u8>, String> {
    hex::parse(text).map_err(|error| format!("--hex, character {}: {error}", error.at() + 1))
}

/// An address or a name, with or without a port.
fn server(text: &str) -> Result<SocketAddrV4, String> {
    let with_port = match text.contains(':') {
        true => text.to_string(),
        false => format!("{text}:{PORT}"),
    };
    let found = with_port
        .to_socket_addrs()
        .map_err(|error| format!("'{text}' is no server's address: {error}"))?
        .find_map(|address| match address {
            SocketAddr::V4(address) => Some(address),
            SocketAddr::V6(_) => None,
        });
    found.ok_or_else(|| format!("'{text}' has no IPv4 address"))
}

#[cfg(test)]
mod tests {
    use super::*;

    fn parsed(line: &str) -> Result<Settings, String> {
        settings(Args::new(line.split(' ').map(String::from).collect()))
    }

    #[test]
    fn the_words_of_a_read() {
        let line = "read 2110:0 -o map --server 10.0.0.1 --lose 2,5 --delay 3:40 --timeout 7";
        let read = parsed(line).unwrap_or_else(|error| panic!("{error}"));
        assert!(matches!(read.task, Task::Read { to: Some(_) }));
        assert_eq!(read.server.to_string(), "10.0.0.1:3819");
        assert_eq!(read.faults.answers_lost, [2, 5]);
        assert_eq!(read.faults.delayed, [3]);
        assert_eq!(read.patience.timeout, Duration::from_millis(7));
    }

    #[test]
    fn wrong_words_are_named() {
        for (line, word) in [
            ("burn 2110:0", "no such task"),
            ("read", "needs a value"),
            ("read 2110", "no object"),
            ("read 2110:0 --hex 00", "no data"),
            ("write 2110:0", "write needs"),
            ("write 2110:0 --hex 0", "character 2"),
            ("write 2110:0 --file /nowhere", "/nowhere"),
            ("read 2110:0 --lose 0", "from 1 on"),
            ("read 2110:0 --lose-rate 101", "0 to 100"),
            ("read 2110:0 --delay 3", "N,M..:MS"),
            ("read 2110:0 --server 1.2.3.4:x", "no server's address"),
            ("read 2110:0 --fast", "no such option"),
        ] {
            let error = parsed(line).err().unwrap_or_default();
            assert!(error.contains(word), "{line}: {error}");
        }
    }
}
