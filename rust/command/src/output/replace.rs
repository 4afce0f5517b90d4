//! Replaces a regular file as a whole.

use super::place::folder_of;
use crate::input::reason;
use crate::printable;
use std::fs::{self, File, OpenOptions};
use std::io::{self, Write};
use std::path::{Path, PathBuf};

/// Replaces a file, or makes it. At every moment the file has its old bytes or
/// all of the given ones: they are written to a file beside it, which then
/// takes its name. A file that may not be written is not replaced.
pub fn replace(path: &Path, bytes: &[u8]) -> Result<(), String> {
    if path.exists() {
        let writable = OpenOptions::new().write(true).open(path);
        writable.map_err(|error| reason(&error))?;
    }
    let (file, beside) = file_beside(path).map_err(|error| {
        let folder = printable::path(folder_of(path));
        let why = reason(&error);
        format!("no file can be made in {folder}: {why}")
    })?;
    let written = fill(file, bytes)
        .and_then(|()| keep_permissions(path, &beside))
        .and_then(|()| fs::rename(&beside, path));
    written.map_err(|error| {
        let _ = fs::remove_file(&beside);
        reason(&error)
    })
}

/// A fresh file in the same folder. A name that a killed run left behind is
/// passed over.
fn file_beside(path: &Path) -> io::Result<(File, PathBuf)> {
    let process = std::process::id();
    let mut attempt = 0;
    loop {
        let name = format!(".barfigol.{process}.{attempt}.part");
        let beside = folder_of(path).join(name);
        let made = OpenOptions::new()
            .write(true)
            .create_new(true)
            .open(&beside);
        match made {
            Err(error) if error.kind() == io::ErrorKind::AlreadyExists && attempt < 100 => {
                attempt += 1;
            }
            made => return made.map(|file| (file, beside)),
        }
    }
}

fn fill(mut file: File, bytes: &[u8]) -> io::Result<()> {
    file.write_all(bytes)?;
    file.sync_all()
}

fn keep_permissions(from: &Path, to: &Path) -> io::Result<()> {
    match fs::metadata(from) {
        Ok(found) => fs::set_permissions(to, found.permissions()),
        Err(_) => Ok(()),
    }
}
