//! Datagrams of every length with anything in them: none breaks the bench, each
//! is counted, and what was answered is answered the same when played again.

use formats::random::Random;
use trials::{gearbox, mechanic, play, said, Bench, Caller, Folder};

const LENGTHS: usize = 1_600;

fn bytes(random: &mut Random, length: usize) -> Vec<u8> {
    (0..length).map(|_| random.byte()).collect()
}

/// A datagram of this length, with or without the four bytes before a frame; the
/// frame is now one of anything, now one whose header and command make sense.
fn datagram(random: &mut Random, length: usize) -> Vec<u8> {
    let mut datagram = bytes(random, length);
    let heads: [&[u8]; 4] = [
        &[6, 17, 99, 5],
        &[6, 17, 99, 5, 0, 1, 0, 0],
        &[6, 17, 99, 5, 2, 6, 0, 0, 0, 7, 0, 2, 4, 0, 0, 0, 0x10, 0x21],
        &[],
    ];
    let head = heads[random.below(4) as usize];
    let common = head.len().min(length);
    datagram[..common].copy_from_slice(&head[..common]);
    datagram
}

#[test]
fn junk_of_all_lengths_breaks_nothing() {
    let folder = Folder::create();
    let recording = folder.path("recording");
    let bench = Bench::start(&gearbox(&folder), &recording, &[]);
    let mut random = Random::new(3);
    let (mut sender, mut settler) = (Caller::new(bench.address), Caller::new(bench.address));
    let (mut sent, mut junk) = (0, 0);
    for length in (0..=LENGTHS).chain([9_000, 65_507]) {
        let datagram = datagram(&mut random, length);
        junk += u64::from(formats::datagram::open(&datagram).is_none());
        sent += 1;
        sender.send_raw(&datagram);
        if length % 16 == 0 {
            settler.settle();
            sent += 1;
            while sender.hear_now().is_some() {}
        }
    }
    settler.settle();
    sent += 1;
    while sender.hear_now().is_some() {}

    let read = mechanic(bench.address, "read 2110:0");
    assert!(read.status.success(), "{}", said(&read));
    let played = play(&bench.recorded());
    assert_eq!(played.answers_to(sender.client()), sender.heard);
    assert!(sender.heard.len() > 100, "{} answers", sender.heard.len());
    let summary = bench.end();
    // The mechanic's read is four frames more.
    let counted = format!("requests {}", sent - junk + 4);
    assert!(summary.contains(&counted), "{counted}: {summary}");
    assert!(
        summary.contains(&format!("junk {junk}")),
        "{junk}: {summary}"
    );
}
