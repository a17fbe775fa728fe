//! A line that loses, doubles, delays and reorders datagrams both ways: a read
//! that a mechanic reports is always the object as it was when an upload began.

use formats::client::Client;
use formats::datagram::MOST_DATAGRAM;
use formats::random::Random;
use std::net::{SocketAddr, UdpSocket};
use std::sync::atomic::{AtomicBool, Ordering};
use std::thread;
use std::time::{Duration, Instant};
use trials::{gearbox, mechanic, play, said, Bench, Folder};

/// Reads over one bench; a late handshake may leave each line's client in the
/// table, which has eight places and drops no client that is Opening.
const READS: u64 = 4;
const BENCHES: u64 = 3;

/// Of 100 datagrams so many are lost, and so many of the others doubled; each
/// copy is held back with the third chance, for up to so many milliseconds.
const LOST: u64 = 8;
const DOUBLED: u64 = 25;
const HELD: u64 = 30;
const MOST_HELD: u64 = 120;

/// Between a mechanic and the bench, which takes it for its client.
struct Line {
    front: UdpSocket,
    back: UdpSocket,
    mechanic: Option<SocketAddr>,
    random: Random,
    /// When a datagram goes on, whether to the bench, and its bytes.
    under_way: Vec<(Instant, bool, Vec<u8>)>,
}

impl Line {
    fn new(bench: SocketAddr, seed: u64) -> Line {
        let socket = || UdpSocket::bind(("127.0.0.1", 0)).unwrap();
        let (front, back) = (socket(), socket());
        back.connect(bench).unwrap();
        for socket in [&front, &back] {
            let short = Some(Duration::from_millis(1));
            socket.set_read_timeout(short).unwrap();
        }
        Line {
            front,
            back,
            mechanic: None,
            random: Random::new(seed),
            under_way: Vec::new(),
        }
    }

    fn client(&self) -> Client {
        match self.back.local_addr().unwrap() {
            SocketAddr::V4(address) => address.into(),
            SocketAddr::V6(_) => panic!("no IPv4 address"),
        }
    }

    fn run(mut self, ended: &AtomicBool) {
        let mut buffer = [0; MOST_DATAGRAM];
        while !ended.load(Ordering::Relaxed) {
            if let Ok((length, from)) = self.front.recv_from(&mut buffer) {
                self.mechanic = Some(from);
                self.spoil(true, &buffer[..length]);
            }
            if let Ok(length) = self.back.recv(&mut buffer) {
                self.spoil(false, &buffer[..length]);
            }
            self.deliver();
        }
    }

    fn chance(&mut self, of_100: u64) -> bool {
        self.random.below(100) < of_100
    }

    fn spoil(&mut self, to_bench: bool, datagram: &[u8]) {
        let copies = match (self.chance(LOST), self.chance(DOUBLED)) {
            (true, _) => 0,
            (_, true) => 2,
            _ => 1,
        };
        for _ in 0..copies {
            let held = self.chance(HELD);
            let held = if held {
                self.random.below(MOST_HELD)
            } else {
                0
            };
            let due = Instant::now() + Duration::from_millis(held);
            self.under_way.push((due, to_bench, datagram.to_vec()));
        }
    }

    fn deliver(&mut self) {
        let now = Instant::now();
        let (due, held): (Vec<_>, _) = self.under_way.drain(..).partition(|way| way.0 <= now);
        self.under_way = held;
        for (_, to_bench, bytes) in due {
            // A datagram that nobody takes is lost like another.
            let _ = match (to_bench, self.mechanic) {
                (true, _) => self.back.send(&bytes),
                (false, Some(mechanic)) => self.front.send_to(&bytes, mechanic),
                (false, None) => Ok(0),
            };
        }
    }
}

/// A read over a line of its own, and who the line was to the bench.
fn read(bench: &Bench, folder: &Folder, seed: u64) -> (Client, Vec<u8>, bool) {
    let file = folder.path(&format!("read-{seed}"));
    let line = Line::new(bench.address, seed);
    let (client, address) = (line.client(), line.front.local_addr().unwrap());
    let ended = AtomicBool::new(false);
    let output = thread::scope(|scope| {
        scope.spawn(|| line.run(&ended));
        let file = file.display();
        let words = format!("read 2110:0 -o {file} --timeout 80 --retries 30 --attempts 200");
        let output = mechanic(address, &words);
        ended.store(true, Ordering::Relaxed);
        output
    });
    let said = said(&output);
    assert!(output.status.success(), "{said}");
    let begun_again = said
        .lines()
        .any(|line| !line.contains(" of 4096 bytes") && !line.contains("reads"));
    (client, std::fs::read(file).unwrap(), begun_again)
}

/// How many reads over a bench of their own were begun again; each is checked.
fn begun_again(round: u64) -> usize {
    let folder = Folder::create();
    let recording = folder.path("recording");
    let bench = Bench::start(&gearbox(&folder), &recording, &["--overwrite", "2110:0:7"]);
    let seeds = round * READS..(round + 1) * READS;
    let reads: Vec<_> = seeds.map(|seed| read(&bench, &folder, seed)).collect();
    bench.end();
    let played = play(&std::fs::read(&recording).unwrap());
    for (client, value, _) in &reads {
        let uploads = &played.uploads[client];
        assert!(uploads.iter().all(|upload| upload.spelled == upload.began));
        let known = uploads.iter().any(|upload| upload.began == *value);
        assert!(known, "{client} read what no upload spelled");
    }
    reads.iter().filter(|read| read.2).count()
}

#[test]
fn what_a_mechanic_reports_is_always_a_whole_value() {
    let begun_again: usize = (0..BENCHES).map(begun_again).sum();
    println!(
        "{begun_again} of {} reads were begun again",
        BENCHES * READS
    );
    assert!(begun_again > 0);
}
