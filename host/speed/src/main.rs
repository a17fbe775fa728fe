//! The proved server through its C interface, the Rust that was ported, that
//! Rust behind the same tests, and behind the same interface: what a call
//! costs. docs/SPEED.md has the figures, tools/speed makes them.

mod archive;
mod cases;
mod checks;
mod coding;
mod contestants;
mod rust;
mod timing;

use cases::Case;
use contestants::{measured, Contestant};
use formats::args::Args;
use std::process::ExitCode;

const USAGE: &str = "usage: speed                            times of every case, as a table
       speed --list                     the cases' names
       speed --once CASE CONTESTANT N   a case on N copies, once (archive, bare, checked or coded)";

const HEAD: &str = "\
| case | entries | archive | median | bare | median | checked | median | coded | median | archive / checked | archive / coded |
|---|--:|--:|--:|--:|--:|--:|--:|--:|--:|--:|--:|";

fn main() -> ExitCode {
    match Args::from_env().and_then(words) {
        Ok(Words::All) => done(all()),
        Ok(Words::List) => {
            for case in cases::all() {
                println!("{}", case.name());
            }
            ExitCode::SUCCESS
        }
        Ok(Words::Once(case, contestant, copies)) => done(once(&case, contestant, copies)),
        Err(line) => {
            eprintln!("speed: {line}\n{USAGE}");
            ExitCode::from(2)
        }
    }
}

enum Words {
    All,
    List,
    Once(Case, Contestant, usize),
}

fn words(mut args: Args) -> Result<Words, String> {
    let words = match args.next().as_deref() {
        None => Words::All,
        Some("--list") => Words::List,
        Some("--once") => {
            let name = args.value("--once")?;
            let case = cases::all().into_iter().find(|case| case.name() == name);
            let case = case.ok_or_else(|| format!("{name} is no case (--list has them)"))?;
            let word = args.value(&name)?;
            let contestant =
                Contestant::named(&word).ok_or_else(|| format!("'{word}' is no contestant"))?;
            Words::Once(case, contestant, args.parsed(&word, "how many copies")?)
        }
        Some(word) => return Err(format!("'{word}' is unknown")),
    };
    match args.next() {
        None => Ok(words),
        Some(word) => Err(format!("'{word}' is one word too many")),
    }
}

fn once(case: &Case, contestant: Contestant, copies: usize) -> Result<(), String> {
    let image = cases::image(case.entries)?;
    measured(contestant.prepare(case, &image, copies).as_mut());
    Ok(())
}

fn all() -> Result<(), String> {
    println!("{HEAD}");
    for case in cases::all() {
        let image = cases::image(case.entries)?;
        let times = timing::of(&case, &image);
        let [archive, _, checked, coded] = times;
        let columns = times.map(|times| format!("{:.0} | {:.0}", times.best, times.median));
        println!(
            "| {} | {} | {} | {:.2} | {:.2} |",
            case.what,
            case.entries,
            columns.join(" | "),
            archive.best / checked.best,
            archive.best / coded.best
        );
    }
    Ok(())
}

fn done(result: Result<(), String>) -> ExitCode {
    match result {
        Ok(()) => ExitCode::SUCCESS,
        Err(line) => {
            eprintln!("speed: {line}");
            ExitCode::FAILURE
        }
    }
}
