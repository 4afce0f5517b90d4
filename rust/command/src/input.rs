//! What is read: tables, texts and assignments, from files and standard input.

use crate::printable;
use crate::words::Source;
use barfigol::MOST_BYTES;
use std::fs::File;
use std::io::{self, Read};

/// A source as texts call it.
pub fn name(source: &Source) -> String {
    match source {
        Source::Input => String::from("standard input"),
        Source::File(path) => printable::path(path),
    }
}

/// A source as it was typed. What is no UTF-8 is replaced.
pub fn typed(source: &Source) -> String {
    match source {
        Source::Input => String::from("-"),
        Source::File(path) => path.to_string_lossy().into_owned(),
    }
}

/// Why something cannot be read or written, without the system's number.
pub fn reason(error: &io::Error) -> String {
    let text = error.to_string();
    let end = text.find(" (os error ").unwrap_or(text.len());
    text[..end].to_string()
}

/// Opens a source.
pub fn open(source: &Source) -> Result<Box<dyn Read>, String> {
    match source {
        Source::Input => Ok(Box::new(io::stdin())),
        Source::File(path) => match File::open(path) {
            Ok(file) => Ok(Box::new(file)),
            Err(error) => Err(reason(&error)),
        },
    }
}

/// Reads a table. One byte more than the longest table is read, so that a
/// longer one is seen to be too long, however long it is.
pub fn table(source: &Source) -> Result<Vec<u8>, String> {
    start_of(source, MOST_BYTES + 1)
}

/// Reads a source that has at most so many bytes.
pub fn whole(source: &Source, most: usize) -> Result<Vec<u8>, String> {
    let bytes = start_of(source, most + 1)?;
    if bytes.len() > most {
        return Err(format!("it is longer than {most} bytes"));
    }
    Ok(bytes)
}

fn start_of(source: &Source, most: usize) -> Result<Vec<u8>, String> {
    let mut bytes = Vec::new();
    let read = open(source)?.take(most as u64).read_to_end(&mut bytes);
    read.map_err(|error| reason(&error))?;
    Ok(bytes)
}
