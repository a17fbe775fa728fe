//! Finds the Rust files that are taken in by path and hands their folder on
//! as POWERLINK_RS_SDO, an absolute path, for `include!`.

use std::env;
use std::path::{Path, PathBuf};

/// Where the repository is looked for without POWERLINK_RS, seen from here.
const DEFAULT: &str = "../../shared/docs/src";

/// The folder of the files below, seen from the repository's root.
const SDO: &str = "crates/powerlink-rs/src/sdo";

/// The files taken in, seen from `SDO`.
const FILES: [&str; 7] = [
    "sequence.rs",
    "command/base.rs",
    "command/handler.rs",
    "state.rs",
    "handlers.rs",
    "sequence_handler.rs",
    "server.rs",
];

fn main() {
    println!("cargo::rerun-if-changed=build.rs");
    println!("cargo::rerun-if-env-changed=POWERLINK_RS");
    match find() {
        Ok(folder) => {
            for file in FILES {
                println!("cargo::rerun-if-changed={folder}/{file}");
            }
            println!("cargo::rustc-env=POWERLINK_RS_SDO={folder}");
        }
        Err(line) => println!("cargo::error={line}"),
    }
}

/// The absolute folder that holds every file, or one line that says which is
/// not there. A relative path is taken from this folder.
fn find() -> Result<String, String> {
    let here = PathBuf::from(env::var_os("CARGO_MANIFEST_DIR").expect("cargo sets it"));
    let (root, from) = match env::var_os("POWERLINK_RS") {
        Some(value) if !value.is_empty() => (PathBuf::from(value), "POWERLINK_RS"),
        _ => (
            PathBuf::from(DEFAULT),
            "the default, POWERLINK_RS is not set",
        ),
    };
    for file in FILES {
        let path = Path::new(SDO).join(file);
        if !here.join(&root).join(&path).is_file() {
            return Err(format!(
                "no {} under {} ({from}); set POWERLINK_RS to a checkout of \
                 fabiomolinar/powerlink-rs at commit 3984eaf980",
                path.display(),
                root.display(),
            ));
        }
    }
    let folder = here
        .join(&root)
        .join(SDO)
        .canonicalize()
        .map_err(|error| format!("{} ({from}): {error}", root.display()))?;
    folder
        .into_os_string()
        .into_string()
        .map_err(|_| format!("{} ({from}): the path is not UTF-8", root.display()))
}
