//! A journal's bytes from a file, and into a new one.

use std::fs::{File, OpenOptions};
use std::io::{ErrorKind, Read, Write};
use std::path::Path;

use reference::journal::framing::REACH;

use crate::Trouble;

/// All bytes of a file. One longer than any journal is refused, so that an endless one ends.
pub fn read(path: &Path) -> Result<Vec<u8>, Trouble> {
    let file = File::open(path).map_err(|error| match error.kind() {
        ErrorKind::NotFound => Trouble::NoSuchFile(path.into()),
        _ => Trouble::CannotRead(path.into(), error.to_string()),
    })?;
    if file.metadata().is_ok_and(|known| known.is_dir()) {
        return Err(Trouble::Directory(path.into()));
    }
    let mut bytes = Vec::new();
    let read = file.take(REACH as u64 + 1).read_to_end(&mut bytes);
    match read {
        Err(error) => Err(Trouble::CannotRead(path.into(), error.to_string())),
        Ok(size) if size > REACH => {
            let why = format!("longer than {REACH} bytes, as no journal is");
            Err(Trouble::CannotRead(path.into(), why))
        }
        Ok(_) => Ok(bytes),
    }
}

/// A file that is not there yet: nothing is ever overwritten.
pub fn write_new(path: &Path, bytes: &[u8]) -> Result<(), Trouble> {
    let new = OpenOptions::new().write(true).create_new(true).open(path);
    let written = new.and_then(|mut file| {
        file.write_all(bytes)?;
        file.sync_all()
    });
    written.map_err(|error| Trouble::CannotWrite(path.into(), error.to_string()))
}
