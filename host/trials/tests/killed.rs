//! A bench that is killed at any moment leaves a recording that is whole but for
//! at most its last item, and that gives the answers that were heard.

use std::net::SocketAddr;
use std::path::Path;
use std::sync::atomic::{AtomicBool, AtomicUsize, Ordering};
use std::thread;
use trials::{gearbox, mechanic, play, run, said, shuttle_map, Bench, Caller, Folder};

const ROUNDS: usize = 6;
const CALLERS: usize = 4;

/// A handshake, the read of 2110:0, and two acknowledgements.
const READ: [&[u8]; 4] = [
    &[0, 1, 0, 0],
    &[2, 6, 0, 0, 0, 7, 0, 2, 4, 0, 0, 0, 0x10, 0x21, 0, 0],
    &[6, 10, 0, 0],
    &[10, 14, 0, 0],
];

/// Reads until nobody answers any more.
fn call(address: SocketAddr, answers: &AtomicUsize, ended: &AtomicBool) -> Caller {
    let mut caller = Caller::new(address);
    for frame in READ.iter().cycle() {
        caller.send(frame);
        while caller.hear_now().is_none() {
            if ended.load(Ordering::Relaxed) {
                return caller;
            }
        }
        answers.fetch_add(1, Ordering::Relaxed);
    }
    caller
}

/// Kills a bench after so many answers, and looks at what it left.
fn killed_after(image: &Path, recording: &Path, count: usize) {
    let bench = Bench::start(image, recording, &[]);
    let (answers, ended) = (AtomicUsize::new(0), AtomicBool::new(false));
    let address = bench.address;
    let callers: Vec<Caller> = thread::scope(|scope| {
        let call = || call(address, &answers, &ended);
        let running: Vec<_> = (0..CALLERS).map(|_| scope.spawn(call)).collect();
        while answers.load(Ordering::Relaxed) < count {
            thread::yield_now();
        }
        bench.kill();
        ended.store(true, Ordering::Relaxed);
        running
            .into_iter()
            .map(|caller| caller.join().unwrap())
            .collect()
    });

    let recorded = std::fs::read(recording).unwrap();
    let played = play(&recorded);
    println!(
        "after {count} answers: {} items, {}",
        played.items, played.ending
    );
    for caller in &callers {
        let answers = played.answers_to(caller.client());
        let heard = &caller.heard;
        assert!(heard.len() <= answers.len(), "an answer was not recorded");
        assert!(heard[..] == answers[..heard.len()], "an answer differs");
        // One at a time: at most the last was recorded and not heard.
        assert!(answers.len() <= heard.len() + 1);
    }
}

#[test]
fn a_killed_bench_loses_at_most_the_call_in_progress() {
    let folder = Folder::create();
    let image = gearbox(&folder);
    for round in 0..ROUNDS {
        let recording = folder.path(&format!("recording-{round}"));
        killed_after(&image, &recording, 200 + 77 * round);
    }

    let recording = folder.path("recording-0");
    let before = std::fs::read(&recording).unwrap();
    let words = [
        "--image",
        image.to_str().unwrap(),
        "--port",
        "0",
        "--record",
    ];
    let words: Vec<&str> = words.into_iter().chain(recording.to_str()).collect();
    let refused = run("bench", &words);
    assert_eq!(refused.status.code(), Some(1));
    assert!(said(&refused).contains("--force"), "{}", said(&refused));
    assert_eq!(std::fs::read(&recording).unwrap(), before);

    let bench = Bench::start(&image, &recording, &["--force"]);
    let file = folder.path("map");
    let read = mechanic(bench.address, &format!("read 2110:0 -o {}", file.display()));
    assert!(read.status.success(), "{}", said(&read));
    assert_eq!(std::fs::read(file).unwrap(), shuttle_map());
    bench.signal("TERM");
    let played = play(&std::fs::read(&recording).unwrap());
    assert_eq!(played.ending.fault, None);
    assert_eq!(played.uploads.len(), 1);
}
