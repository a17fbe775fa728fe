//! The recording: a script of calls that grows by whole items.

use std::fs::{File, OpenOptions};
use std::io::{self, Write};
use std::path::{Path, PathBuf};

pub struct Recording {
    path: PathBuf,
    file: File,
    /// The bytes of whole items.
    length: u64,
}

impl Recording {
    /// A new file; one that is there is overwritten only if that is asked for.
    pub fn create(path: &Path, force: bool) -> Result<Recording, String> {
        let mut options = OpenOptions::new();
        options.write(true);
        match force {
            true => options.create(true).truncate(true),
            false => options.create_new(true),
        };
        let file = options.open(path).map_err(|error| match error.kind() {
            io::ErrorKind::AlreadyExists => format!(
                "{} is there already: name another file, or say --force to overwrite it",
                path.display()
            ),
            _ => format!("{} cannot be written: {error}", path.display()),
        })?;
        Ok(Recording {
            path: path.to_path_buf(),
            file,
            length: 0,
        })
    }

    /// Adds an item by one write, with no buffer of our own before the file.
    /// Where it cannot be written whole, the file is left without it.
    pub fn add(&mut self, item: &[u8]) -> Result<(), String> {
        match self.file.write_all(item) {
            Ok(()) => {
                self.length += item.len() as u64;
                Ok(())
            }
            Err(error) => {
                let path = self.path.display();
                let left = match self.file.set_len(self.length) {
                    Ok(()) => "it is whole up to the call before",
                    Err(_) => "its last item may be cut short",
                };
                Err(format!("{path} cannot be written: {error}; {left}"))
            }
        }
    }

    pub fn path(&self) -> &Path {
        &self.path
    }

    pub fn length(&self) -> u64 {
        self.length
    }
}
