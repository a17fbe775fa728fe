//! Eight mechanics at once on a line that loses frames, while the object is
//! overwritten: each reads the object as it was when its read began.

use formats::client::Client;
use std::net::SocketAddrV4;
use std::thread;
use trials::{gearbox, mechanic, play, said, told, Bench, Folder, Played};

const MECHANICS: u64 = 8;
const READS: u64 = 4;

/// Each read is held up after its first piece, so that many run at once.
const SPOILT: &str = "--lose-rate 12 --delay 3:300 --timeout 500 --retries 20 --attempts 100";

/// Of the eight that run, so many must have been seen in the table at a time.
const AT_ONCE: usize = 4;

/// Who the mechanic was to the server, and what it read.
struct Read {
    client: Client,
    value: Vec<u8>,
    lost: bool,
}

fn read(bench: &Bench, folder: &Folder, seed: u64) -> Read {
    let file = folder.path(&format!("read-{seed}"));
    let words = format!("read 2110:0 -o {} {SPOILT} --seed {seed}", file.display());
    let output = mechanic(bench.address, &words);
    assert!(output.status.success(), "{}", said(&output));
    let said = said(&output);
    let local = said.split(' ').nth(1).unwrap_or_default();
    let local: SocketAddrV4 = local.parse().unwrap_or_else(|_| panic!("{said}"));
    Read {
        client: local.into(),
        value: std::fs::read(file).unwrap(),
        lost: told(&output).contains("lost"),
    }
}

/// Each mechanic's reads one after the other, all mechanics at once.
fn reads(bench: &Bench, folder: &Folder) -> Vec<Read> {
    thread::scope(|scope| {
        let running: Vec<_> = (0..MECHANICS)
            .map(|mechanic| {
                scope.spawn(move || {
                    let seeds = (0..READS).map(|read| mechanic * READS + read);
                    seeds
                        .map(|seed| read(bench, folder, seed))
                        .collect::<Vec<_>>()
                })
            })
            .collect();
        running
            .into_iter()
            .flat_map(|mechanic| mechanic.join().unwrap())
            .collect()
    })
}

fn every_upload_spells(played: &Played) -> usize {
    let uploads = played.uploads.values().flatten();
    for upload in uploads.clone() {
        assert!(upload.spelled == upload.began, "an upload was spoilt");
    }
    uploads.filter(|upload| upload.changed).count()
}

#[test]
fn every_read_is_the_object_as_it_was_when_the_read_began() {
    let folder = Folder::create();
    let recording = folder.path("recording");
    let bench = Bench::start(&gearbox(&folder), &recording, &["--overwrite", "2110:0:5"]);
    let reads = reads(&bench, &folder);
    let summary = bench.end();
    let played = play(&std::fs::read(&recording).unwrap());
    assert_eq!(played.ending.fault, None, "{}", played.ending);
    assert_eq!(reads.len() as u64, MECHANICS * READS);
    for read in &reads {
        let uploads = played.uploads.get(&read.client);
        let last = uploads
            .and_then(|uploads| uploads.last())
            .expect("an upload");
        assert!(
            read.value == last.began,
            "{} read something else",
            read.client
        );
    }
    let changed = every_upload_spells(&played);
    let lossy = reads.iter().filter(|read| read.lost).count();
    let at_once = played.at_once;
    println!(
        "{changed} uploads overwritten in mid-read, {lossy} reads lost frames, {at_once} at once"
    );
    println!("{summary}");
    assert!(changed > 0 && lossy > 0 && at_once >= AT_ONCE);
}
