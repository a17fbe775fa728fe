//! Ticks are recorded where they do something, and nowhere else.

use formats::frame::{Frame, SendMark};
use std::thread::sleep;
use std::time::Duration;
use trials::{image_of, play, Bench, Caller, Folder};

/// A timeout of 60 ms, two retries, and an object of 1,500 bytes.
fn image(folder: &Folder) -> std::path::PathBuf {
    std::fs::write(folder.path("long"), vec![7; 1_500]).unwrap();
    let lines = "1300 0 fixed 4 3C 00 00 00\n1302 0 fixed 4 02 00 00 00\n2001 0 fixed = @long\n";
    image_of(folder, lines)
}

fn mark(answer: &[u8]) -> SendMark {
    Frame::from_bytes(answer).unwrap().header.send_mark
}

#[test]
fn an_idle_bench_records_nothing_and_a_silent_client_is_ticked() {
    let folder = Folder::create();
    let recording = folder.path("recording");
    let bench = Bench::start(&image(&folder), &recording, &[]);
    let mut caller = Caller::new(bench.address);
    caller.settle();
    let before = bench.recorded().len();
    sleep(Duration::from_millis(500));
    assert_eq!(bench.recorded().len(), before);

    caller.ask(&[0, 1, 0, 0]).unwrap();
    let read = [2, 6, 0, 0, 0, 7, 0, 2, 4, 0, 0, 0, 1, 0x20, 0, 0];
    let first = caller.ask(&read).unwrap();
    assert_eq!(mark(&first), SendMark::Valid);
    for _ in 0..2 {
        let again = caller.hear().expect("the piece again");
        assert_eq!(mark(&again), SendMark::Acknowledge);
        assert_eq!(again[4..], first[4..]);
    }
    let aborted = caller.hear().expect("an abort");
    assert_eq!(aborted[4..], [0, 7, 0x30, 0, 4, 0, 0, 0, 0, 0, 4, 5]);

    let summary = bench.end();
    assert!(summary.contains("clients 0"), "{summary}");
    let played = play(&std::fs::read(&recording).unwrap());
    assert_eq!(played.ending.fault, None);
    assert_eq!(played.ticks, 3);
    assert_eq!(played.answers_to(caller.client()), caller.heard);
}
