//! The programs as processes, a client that sends what it likes, and recordings
//! played again: what the trials in `tests` are made of.

mod bench;
mod caller;
mod folder;
mod played;
mod programs;

pub use bench::Bench;
pub use caller::Caller;
pub use folder::Folder;
pub use played::{play, Played, Upload};
pub use programs::{host, program};

use std::net::SocketAddr;
use std::path::PathBuf;
use std::process::{Command, Output};

/// What a program wrote to standard error.
pub fn said(output: &Output) -> String {
    String::from_utf8_lossy(&output.stderr).into_owned()
}

/// What a program wrote to standard output.
pub fn told(output: &Output) -> String {
    String::from_utf8_lossy(&output.stdout).into_owned()
}

/// Runs one of the programs to its end.
pub fn run(name: &str, words: &[&str]) -> Output {
    Command::new(program(name))
        .args(words)
        .output()
        .unwrap_or_else(|error| panic!("{name} cannot be run: {error}"))
}

/// Runs a mechanic at a server.
pub fn mechanic(server: SocketAddr, words: &str) -> Output {
    let server = format!("--server {server}");
    let words: Vec<&str> = words.split(' ').chain(server.split(' ')).collect();
    run("mechanic", &words)
}

/// The sample's image, made in a folder.
pub fn gearbox(folder: &Folder) -> PathBuf {
    let image = folder.path("gearbox.image");
    let text = host().join("samples/gearbox.txt");
    make_image(&text, &image);
    image
}

/// The image of a text with these lines, made in a folder.
pub fn image_of(folder: &Folder, lines: &str) -> PathBuf {
    let (text, image) = (folder.path("own.txt"), folder.path("own.image"));
    std::fs::write(&text, lines).unwrap();
    make_image(&text, &image);
    image
}

fn make_image(text: &std::path::Path, image: &std::path::Path) {
    let words = [
        "make",
        text.to_str().unwrap(),
        "-o",
        image.to_str().unwrap(),
    ];
    let made = run("image", &words);
    assert!(made.status.success(), "{}", said(&made));
}

/// The sample's shuttle map.
pub fn shuttle_map() -> Vec<u8> {
    std::fs::read(host().join("samples/shuttle-map.bin")).unwrap()
}
