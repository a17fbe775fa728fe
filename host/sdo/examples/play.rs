//! Plays a script of calls from standard input through the archive, and writes
//! the transcript to standard output: `cargo run --example play < SCRIPT`.

use formats::script;
use sdo::Player;
use std::io::{self, BufWriter, Read, Write};
use std::process::ExitCode;

fn main() -> ExitCode {
    match play() {
        Ok(ending) if ending.fault.is_none() => ExitCode::SUCCESS,
        Ok(ending) => {
            eprintln!("play: {ending}");
            ExitCode::FAILURE
        }
        Err(error) => {
            eprintln!("play: {error}");
            ExitCode::FAILURE
        }
    }
}

fn play() -> io::Result<script::Ending> {
    let mut bytes = Vec::new();
    io::stdin().read_to_end(&mut bytes)?;
    let (items, ending) = script::read(&bytes);
    let mut out = BufWriter::new(io::stdout().lock());
    let mut player = Player::new();
    for item in &items {
        if let Some(call) = player.play(item) {
            out.write_all(&player.transcript(&call))?;
        }
    }
    out.flush()?;
    Ok(ending)
}
