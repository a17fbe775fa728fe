//! Plays mutated scripts on the proved server and on the Rust that was ported,
//! side by side, and stops at the first difference.

mod corpus;
mod duel;
mod hunt;
mod minimise;
mod mutate;
mod report;
mod seen;
mod sides;

use formats::args::Args;
use formats::script::{self, Item};
use hunt::{hunt, Limits};
use std::path::{Path, PathBuf};
use std::process::ExitCode;

const USAGE: &str = "usage: fuzz [--calls N] [--seed S] [--seconds T] [--save FILE] [RECORDING ...]
  --calls    how many calls are played (1,000,000)
  --seed     what the mutants follow from (1)
  --seconds  ends sooner, after so long
  --save     where a script goes on which the sides differ (fuzz-difference.script)
Exit status: 0 no difference, 1 a difference or a fault, 2 wrong words";

struct Words {
    limits: Limits,
    save: PathBuf,
    recordings: Vec<PathBuf>,
}

fn main() -> ExitCode {
    let words = match Args::from_env().and_then(words) {
        Ok(words) => words,
        Err(line) => {
            eprintln!("fuzz: {line}\n{USAGE}");
            return ExitCode::from(2);
        }
    };
    match run(&words) {
        Ok(true) => ExitCode::SUCCESS,
        Ok(false) => ExitCode::FAILURE,
        Err(line) => {
            eprintln!("fuzz: {line}");
            ExitCode::FAILURE
        }
    }
}

fn words(mut args: Args) -> Result<Words, String> {
    let mut words = Words {
        limits: Limits {
            calls: 1_000_000,
            seconds: None,
            seed: 1,
        },
        save: PathBuf::from("fuzz-difference.script"),
        recordings: Vec::new(),
    };
    while let Some(word) = args.next() {
        match word.as_str() {
            "--calls" => words.limits.calls = args.parsed("--calls", "a number of calls")?,
            "--seed" => words.limits.seed = args.parsed("--seed", "a number below 2^64")?,
            "--seconds" => words.limits.seconds = Some(args.parsed("--seconds", "a number")?),
            "--save" => words.save = args.value("--save")?.into(),
            option if option.starts_with('-') => return Err(format!("'{option}' is unknown")),
            recording => words.recordings.push(recording.into()),
        }
    }
    Ok(words)
}

/// Whether no difference was found.
fn run(words: &Words) -> Result<bool, String> {
    let given: Result<_, _> = words
        .recordings
        .iter()
        .map(|path| recording(path))
        .collect();
    let (played, found) = hunt(&words.limits, given?, &sides::start);
    println!(
        "fuzz: seed {}, {}, {} scripts kept",
        words.limits.seed,
        played.words(),
        played.kept
    );
    match found {
        None => {
            println!("fuzz: no difference");
            Ok(true)
        }
        Some(found) => {
            formats::file::write_whole(&words.save, &found.script())?;
            println!(
                "fuzz: A DIFFERENCE; the script is in {}",
                words.save.display()
            );
            print!("{}", report::words(&found)?);
            Ok(false)
        }
    }
}

/// The items of a recording; one that is cut short counts up to there.
fn recording(path: &Path) -> Result<Vec<Item>, String> {
    let (items, ending) = script::read(&formats::file::read(path)?);
    if ending.fault.is_some() {
        eprintln!("fuzz: {}: {ending}", path.display());
    }
    Ok(items)
}
