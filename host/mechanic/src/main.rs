//! A client that reads or writes an object over UDP.

mod connection;
mod faults;
mod link;
mod told;
mod transfer;
mod words;

use formats::args::Args;
use std::process::ExitCode;

fn main() -> ExitCode {
    let settings = match Args::from_env().and_then(words::settings) {
        Ok(settings) => settings,
        Err(message) => {
            eprintln!("mechanic: {message}\n{}", words::USAGE);
            return ExitCode::from(2);
        }
    };
    match transfer::run(settings) {
        Ok(()) => ExitCode::SUCCESS,
        Err(message) => {
            eprintln!("mechanic: {message}");
            ExitCode::FAILURE
        }
    }
}
