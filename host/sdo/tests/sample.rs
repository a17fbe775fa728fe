//! Scripts played through the archive give the transcripts that are stored.

use formats::script;
use sdo::Player;
use std::path::PathBuf;

fn stored(name: &str) -> Vec<u8> {
    let path = PathBuf::from(env!("CARGO_MANIFEST_DIR"))
        .join("../../crates/replay")
        .join(name);
    std::fs::read(&path).unwrap_or_else(|error| panic!("{}: {error}", path.display()))
}

#[test]
fn the_stored_sample_gives_the_stored_transcript() {
    let (items, ending) = script::read(&stored("stdin"));
    assert_eq!(ending.fault, None, "{ending}");
    let mut player = Player::new();
    let mut due = &stored("stdout")[..];
    let mut calls = 0;
    for item in &items {
        let Some(call) = player.play(item) else {
            continue;
        };
        let got = player.transcript(&call);
        assert!(due.starts_with(&got), "call {calls} differs: {item:?}");
        due = &due[got.len()..];
        calls += 1;
    }
    assert_eq!((calls, due.len()), (1_132, 0));
}
