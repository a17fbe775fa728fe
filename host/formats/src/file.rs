//! Files written whole or not at all.

use std::ffi::OsString;
use std::fs;
use std::path::Path;

/// Writes the bytes beside the file and then puts them in its place.
pub fn write_whole(path: &Path, bytes: &[u8]) -> Result<(), String> {
    let mut part = OsString::from(path);
    part.push(".part");
    fs::write(&part, bytes)
        .and_then(|()| fs::rename(&part, path))
        .map_err(|error| format!("{} cannot be written: {error}", path.display()))
}

pub fn read(path: &Path) -> Result<Vec<u8>, String> {
    fs::read(path).map_err(|error| format!("{} cannot be read: {error}", path.display()))
}
