//! A ninth client gets no answer, and nothing breaks.

use formats::frame::Frame;
use trials::{gearbox, mechanic, said, told, Bench, Caller, Folder};

/// Reads 1008:0 under transaction 7, after a handshake.
const READ_NAME: [u8; 16] = [2, 6, 0, 0, 0, 7, 0, 2, 4, 0, 0, 0, 8, 0x10, 0, 0];

#[test]
fn a_ninth_client_gets_no_answer() {
    let folder = Folder::create();
    let bench = Bench::start(&gearbox(&folder), &folder.path("recording"), &[]);
    let mut callers: Vec<Caller> = (0..8).map(|_| Caller::new(bench.address)).collect();
    for caller in &mut callers {
        let welcome = caller.ask(&[0, 1, 0, 0]).expect("an answer");
        assert_eq!(welcome[..4], [1, 1, 0, 0]);
    }

    let mut ninth = Caller::new(bench.address);
    ninth.send(&[0, 1, 0, 0]);
    let late = mechanic(bench.address, "read 1008:0 --timeout 100 --retries 2");
    assert_eq!(late.status.code(), Some(1));
    assert!(said(&late).contains("no answer"), "{}", said(&late));
    assert_eq!(ninth.hear_now(), None);

    for caller in &mut callers {
        let answer = caller.ask(&READ_NAME).expect("an answer");
        let command = Frame::from_bytes(&answer).unwrap().command.unwrap();
        assert_eq!(command.payload, b"Gearbox GX-7");
    }
    let read = mechanic(bench.address, "read 1008:0");
    assert!(read.status.success(), "{}", said(&read));
    assert!(told(&read).contains("\"Gearbox GX-7\""));
    let summary = bench.end();
    // The ninth's handshake, three of the mechanic, and its aborts between them.
    assert!(summary.contains("6 with 7"), "{summary}");
}
