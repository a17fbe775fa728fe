//! Builds the archive of the proved server, crate `export_c`, by `tools/build`
//! at the repository's root, or takes the one that SDO_ARCHIVE names, and links it.

use std::path::{Path, PathBuf};
use std::process::Command;
use std::{env, fs};

const CRATE: &str = "export_c";
const LIBRARY: &str = "export";
const GIVEN: &str = "SDO_ARCHIVE";

fn main() {
    println!("cargo::rerun-if-env-changed={GIVEN}");
    match archive().and_then(|archive| link(&archive)) {
        Ok(()) => {}
        Err(message) => println!("cargo::error={message}"),
    }
}

fn archive() -> Result<PathBuf, String> {
    let Some(given) = env::var_os(GIVEN) else {
        return build();
    };
    let archive = PathBuf::from(given);
    println!("cargo::rerun-if-changed={}", archive.display());
    if !archive.is_file() {
        return Err(format!(
            "{GIVEN} names {}, which is no file (a relative name is seen from host/sdo)",
            archive.display()
        ));
    }
    Ok(archive)
}

/// The archive as the proved crates give it.
fn build() -> Result<PathBuf, String> {
    let package = env::var("CARGO_MANIFEST_DIR").map_err(|error| error.to_string())?;
    let root = Path::new(&package).join("../..");
    println!(
        "cargo::rerun-if-changed={}",
        root.join("crates.txt").display()
    );
    // rt writes to a crate's other folders
    let crates = fs::read_dir(root.join("crates")).map_err(|error| format!("crates: {error}"))?;
    for folder in crates.flatten().map(|folder| folder.path()) {
        for changed in ["src", "specs", "proofs"].map(|part| folder.join(part)) {
            if changed.is_dir() {
                println!("cargo::rerun-if-changed={}", changed.display());
            }
        }
    }
    let archive = root.join(format!("target/staticlib/lib{LIBRARY}.a"));
    println!("cargo::rerun-if-changed={}", archive.display());
    let run = Command::new(root.join("tools/build"))
        .arg(CRATE)
        .current_dir(&root)
        .output()
        .map_err(|error| {
            format!(
                "tools/build cannot be run ({error}): it needs python3, and the Rattle kit's bin \
                 folder on PATH; or name a built archive by {GIVEN}"
            )
        })?;
    if !run.status.success() {
        let said = [run.stdout, run.stderr].concat();
        let said = String::from_utf8_lossy(&said);
        let last = said.lines().last().unwrap_or("it said nothing");
        return Err(format!("tools/build {CRATE} failed: {last}"));
    }
    Ok(archive)
}

/// A copy in the build's own folder is linked, as the next build replaces the first.
fn link(archive: &Path) -> Result<(), String> {
    let folder = env::var("OUT_DIR").map_err(|error| error.to_string())?;
    let copy = Path::new(&folder).join(format!("lib{LIBRARY}.a"));
    fs::copy(archive, &copy)
        .map_err(|error| format!("{} cannot be copied: {error}", archive.display()))?;
    println!("cargo::rustc-link-search=native={folder}");
    println!("cargo::rustc-link-lib=static={LIBRARY}");
    println!("cargo::rustc-env=SDO_ARCHIVE_COPY={}", copy.display());
    Ok(())
}
