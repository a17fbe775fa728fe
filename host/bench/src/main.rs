//! A UDP server of the proved SDO server, which records every call.

mod counts;
mod overwrite;
mod recording;
mod running;
mod service;
mod status;
mod system;
mod words;

use formats::args::Args;
use std::process::ExitCode;

fn main() -> ExitCode {
    let settings = match Args::from_env().and_then(words::settings) {
        Ok(settings) => settings,
        Err(message) => {
            eprintln!("bench: {message}\n{}", words::USAGE);
            return ExitCode::from(2);
        }
    };
    match running::run(&settings) {
        Ok(()) => ExitCode::SUCCESS,
        Err(message) => {
            eprintln!("bench: {message}");
            ExitCode::FAILURE
        }
    }
}
