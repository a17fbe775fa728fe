//! Makes a dictionary image from a readable text, and shows one.

mod show;
mod text;

use formats::args::Args;
use formats::{dictionary, file};
use std::path::{Path, PathBuf};
use std::process::ExitCode;

const USAGE: &str = "usage: image make TEXT -o IMAGE     makes the image that the text describes
       image show IMAGE             shows what an image holds";

enum Task {
    Make { text: PathBuf, image: PathBuf },
    Show { image: PathBuf },
}

fn main() -> ExitCode {
    let task = match Args::from_env().and_then(task) {
        Ok(task) => task,
        Err(message) => {
            eprintln!("image: {message}\n{USAGE}");
            return ExitCode::from(2);
        }
    };
    let done = match task {
        Task::Make { text, image } => make(&text, &image),
        Task::Show { image } => show(&image),
    };
    match done {
        Ok(said) => {
            println!("{said}");
            ExitCode::SUCCESS
        }
        Err(message) => {
            eprintln!("{message}");
            ExitCode::FAILURE
        }
    }
}

fn task(mut args: Args) -> Result<Task, String> {
    let task = match args.next().as_deref() {
        Some("make") => {
            let text = args.value("make")?.into();
            match args.next().as_deref() {
                Some("-o") => {}
                Some(other) => return Err(format!("expected -o, found '{other}'")),
                None => return Err("make needs -o and a file for the image".to_string()),
            }
            let image = args.value("-o")?.into();
            Task::Make { text, image }
        }
        Some("show") => Task::Show {
            image: args.value("show")?.into(),
        },
        Some(other) => return Err(format!("no such task: '{other}'")),
        None => return Err("nothing to do".to_string()),
    };
    match args.next() {
        Some(word) => Err(format!("a word too many: '{word}'")),
        None => Ok(task),
    }
}

fn make(text: &Path, image: &Path) -> Result<String, String> {
    let bytes = file::read(text).map_err(|message| format!("image: {message}"))?;
    let folder = text.parent().unwrap_or(Path::new(""));
    let entries = text::parse(&bytes, folder).map_err(|fault| fault.told(text))?;
    let made = dictionary::encode(&entries).map_err(|unsound| format!("image: {unsound}"))?;
    file::write_whole(image, &made).map_err(|message| format!("image: {message}"))?;
    Ok(format!(
        "{}: {} objects, {} bytes",
        image.display(),
        entries.len(),
        made.len()
    ))
}

fn show(image: &Path) -> Result<String, String> {
    let bytes = file::read(image).map_err(|message| format!("image: {message}"))?;
    let entries = dictionary::decode(&bytes)
        .map_err(|unsound| format!("{}: not sound: {unsound}", image.display()))?;
    Ok(show::table(&entries, bytes.len()))
}
