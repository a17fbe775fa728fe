//! The words that bench is started with.

use crate::overwrite::Overwrite;
use formats::args::Args;
use formats::datagram::PORT;
use std::net::{Ipv4Addr, SocketAddrV4};
use std::path::PathBuf;
use std::time::{SystemTime, UNIX_EPOCH};

pub const USAGE: &str = "usage: bench --image IMAGE [OPTION...]
  --image IMAGE     the dictionary image that is served (image make makes one)
  --record FILE     where every call is recorded; without it bench-SECONDS.rec here
  --force           FILE may be there already, and is overwritten
  --bind ADDRESS    the IPv4 address that is listened at (127.0.0.1)
  --port PORT       the UDP port (3819); 0 takes a free one, which is printed
  --overwrite INDEX:SUB:MS
                    for tests: every MS milliseconds each byte of the object is one more";

pub struct Settings {
    pub image: PathBuf,
    pub record: PathBuf,
    pub force: bool,
    pub address: SocketAddrV4,
    pub overwrite: Option<Overwrite>,
}

pub fn settings(mut args: Args) -> Result<Settings, String> {
    let (mut image, mut record, mut force, mut overwrite) = (None, None, false, None);
    let (mut ip, mut port) = (Ipv4Addr::LOCALHOST, PORT);
    while let Some(word) = args.next() {
        match word.as_str() {
            "--image" => image = Some(PathBuf::from(args.value(&word)?)),
            "--record" => record = Some(PathBuf::from(args.value(&word)?)),
            "--force" => force = true,
            "--bind" => ip = args.parsed(&word, "an IPv4 address")?,
            "--port" => port = args.parsed(&word, "a port of 0 to 65535")?,
            "--overwrite" => {
                overwrite = Some(args.parsed(&word, "INDEX:SUB:MS, as 2110:0:50")?);
            }
            _ => return Err(format!("no such option: '{word}'")),
        }
    }
    Ok(Settings {
        image: image.ok_or("--image is needed")?,
        record: record.unwrap_or_else(named_by_time),
        force,
        address: SocketAddrV4::new(ip, port),
        overwrite,
    })
}

fn named_by_time() -> PathBuf {
    let since = SystemTime::now().duration_since(UNIX_EPOCH);
    let seconds = since.map_or(0, |since| since.as_secs());
    PathBuf::from(format!("bench-{seconds}.rec"))
}
