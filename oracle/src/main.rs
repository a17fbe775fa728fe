//! The oracle's subcommands. README.md has them.

use std::fs::File;
use std::io::{self, BufReader, BufWriter, Write};
use std::process::ExitCode;

use oracle::codec;
use oracle::replay::{self, Trouble};
use oracle::stream::Fault;

const USAGE: &str = "usage: oracle codec-all | codec-items SEED COUNT | codec-sample | \
                     codec < ITEMS | short-buffer | \
                     replay-script SEED COUNT one|series|tables|images|wild | replay-sample | \
                     replay < SCRIPT | coverage < SCRIPT | differ SCRIPT RUST PORT";

const BLOCK: usize = 1 << 16;

fn main() -> ExitCode {
    let words: Vec<String> = std::env::args_os()
        .skip(1)
        .map(|word| word.to_string_lossy().into_owned())
        .collect();
    let words: Vec<&str> = words.iter().map(String::as_str).collect();

    let mut out = BufWriter::with_capacity(BLOCK, io::stdout().lock());
    let result = match words[..] {
        ["codec-all"] => codec::all(&mut out).map_err(failed),
        ["codec-items", seed, count] => match (seed.parse(), count.parse()) {
            (Ok(seed), Ok(count)) => codec::random(seed, count, &mut out).map_err(failed),
            _ => return usage(),
        },
        ["codec-sample"] => codec::sample(&mut out).map_err(failed),
        ["codec"] => {
            let script = BufReader::with_capacity(BLOCK, io::stdin().lock());
            codec::run(script, &mut out).map_err(stopped)
        }
        ["replay-script", seed, count, profile] => {
            let profile = replay::Profile::named(profile);
            match (seed.parse(), count.parse(), profile) {
                (Ok(seed), Ok(count), Some(profile)) => {
                    replay::script(seed, count, profile, &mut out).map_err(failed)
                }
                _ => return usage(),
            }
        }
        ["replay-sample"] => replay::sample(&mut out).map_err(failed),
        ["replay"] => {
            let script = BufReader::with_capacity(BLOCK, io::stdin().lock());
            replay::run(script, &mut out).map_err(stopped)
        }
        ["coverage"] => {
            let script = BufReader::with_capacity(BLOCK, io::stdin().lock());
            replay::coverage(script, &mut out).map_err(stopped)
        }
        ["differ", script, left, right] => differ(script, left, right, &mut out),
        ["short-buffer"] => codec::short_buffer(&mut out).map_err(failed),
        _ => return usage(),
    };
    // What came before a fault is written all the same.
    let result = result.and(out.flush().map_err(failed));
    match result {
        Ok(()) => ExitCode::SUCCESS,
        Err(line) => {
            if !line.is_empty() {
                eprintln!("oracle: {line}");
            }
            ExitCode::FAILURE
        }
    }
}

/// Silent if the transcripts in these files are equal.
fn differ(script: &str, left: &str, right: &str, out: &mut impl Write) -> Result<(), String> {
    let open = |name: &str| match File::open(name) {
        Ok(file) => Ok(BufReader::with_capacity(BLOCK, file)),
        Err(error) => Err(format!("{name}: {error}")),
    };
    match replay::differ(open(script)?, open(left)?, open(right)?, out) {
        Ok(true) => Ok(()),
        // The difference is written; there is no more to say.
        Ok(false) => Err(String::new()),
        Err(Trouble::Script(at, fault)) => Err(stopped((at, fault))),
        Err(Trouble::Io(error)) => Err(error.to_string()),
    }
}

fn usage() -> ExitCode {
    eprintln!("{USAGE}");
    ExitCode::from(2)
}

fn failed(error: io::Error) -> String {
    error.to_string()
}

fn stopped((at, fault): (u64, Fault)) -> String {
    match fault {
        Fault::Cut => format!("the item at byte {at} is cut short"),
        Fault::Unknown(why) => format!("the item at byte {at} is unknown: {why}"),
        Fault::Io(error) => format!("at byte {at}: {error}"),
    }
}
