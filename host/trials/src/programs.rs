//! The programs, built.

use std::path::{Path, PathBuf};
use std::process::Command;
use std::sync::OnceLock;

/// The workspace's folder.
pub fn host() -> PathBuf {
    Path::new(env!("CARGO_MANIFEST_DIR")).join("..")
}

/// Where a program of the workspace is.
pub fn program(name: &str) -> PathBuf {
    static BUILT: OnceLock<Vec<PathBuf>> = OnceLock::new();
    let built = BUILT.get_or_init(build);
    let found = built.iter().find(|path| path.ends_with(name));
    found
        .unwrap_or_else(|| panic!("{name} was not built"))
        .clone()
}

/// Cargo says, in a line of JSON for each, where the programs are.
fn build() -> Vec<PathBuf> {
    let run = Command::new(env!("CARGO"))
        .args(["build", "--offline", "--quiet", "--bins"])
        .arg("--message-format=json-render-diagnostics")
        .current_dir(host())
        .output()
        .unwrap_or_else(|error| panic!("cargo cannot be run: {error}"));
    let said = String::from_utf8_lossy(&run.stderr);
    assert!(run.status.success(), "the programs are not built: {said}");
    let lines = String::from_utf8_lossy(&run.stdout).into_owned();
    lines.lines().filter_map(executable).collect()
}

fn executable(line: &str) -> Option<PathBuf> {
    let (_, rest) = line.split_once("\"executable\":\"")?;
    rest.split_once('"').map(|(path, _)| PathBuf::from(path))
}
