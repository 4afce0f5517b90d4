//! What is written: standard output, and the file OUT.

mod place;
mod replace;

use crate::input::reason;
use crate::printable;
use crate::status::Stop;
use crate::words::Target;
use place::Place;
use std::fs::OpenOptions;
use std::io::{self, Stdout, Write};
use std::path::Path;

/// Standard output. A reader that goes away has had enough, which is no
/// failure: what comes then is thrown away.
pub struct Output {
    stdout: Stdout,
    gone: bool,
}

impl Output {
    /// Standard output.
    pub fn new() -> Output {
        Output {
            stdout: io::stdout(),
            gone: false,
        }
    }

    /// Whether the reader went away.
    pub fn is_gone(&self) -> bool {
        self.gone
    }

    /// Writes all of some bytes, at once.
    pub fn write(&mut self, bytes: &[u8]) -> Result<(), Stop> {
        if self.gone {
            return Ok(());
        }
        let written = self.stdout.write_all(bytes);
        match written.and_then(|()| self.stdout.flush()) {
            Ok(()) => Ok(()),
            Err(error) if error.kind() == io::ErrorKind::BrokenPipe => {
                self.gone = true;
                Ok(())
            }
            Err(error) => Err(Stop::failed(&format!(
                "standard output: {}",
                reason(&error)
            ))),
        }
    }

    /// Writes a text.
    pub fn text(&mut self, text: &str) -> Result<(), Stop> {
        self.write(text.as_bytes())
    }
}

/// Writes all of some bytes to OUT.
pub fn write(target: &Target, bytes: &[u8], out: &mut Output) -> Result<(), Stop> {
    let path = match target {
        Target::Output => return out.write(bytes),
        Target::File(path) => path,
    };
    let failed = |what: String| Stop::failed(&format!("{}: {what}", printable::path(path)));
    match place::of(path).map_err(failed)? {
        Place::Output => out.write(bytes),
        Place::Errors => io::stderr()
            .write_all(bytes)
            .map_err(|error| failed(reason(&error))),
        Place::Stream(path) => stream(&path, bytes).map_err(failed),
        Place::Regular(path) => replace::replace(&path, bytes).map_err(failed),
    }
}

/// Writes to what takes bytes as they come. A reader that goes away has had
/// enough.
fn stream(path: &Path, bytes: &[u8]) -> Result<(), String> {
    let opened = OpenOptions::new().write(true).open(path);
    match opened.and_then(|mut file| file.write_all(bytes)) {
        Err(error) if error.kind() != io::ErrorKind::BrokenPipe => Err(reason(&error)),
        _ => Ok(()),
    }
}
