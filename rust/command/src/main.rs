//! The command `barfigol`: checks, lists, translates and evaluates table files.
//!
//! The command line is described in [`description`] and read in [`words`]; what
//! is asked for is done in [`run`], and a refusal is explained by [`explain`].
//! The answers themselves come from the library.

#![forbid(unsafe_code)]
#![warn(missing_docs)]

mod description;
mod explain;
mod help;
mod input;
mod json;
mod output;
mod printable;
mod run;
mod status;
mod suggest;
mod words;

use output::Output;
use status::{Status, Stop};
use std::ffi::OsString;
use std::io::{self, Write};
use std::process::ExitCode;
use words::Misuse;

fn main() -> ExitCode {
    let words: Vec<OsString> = std::env::args_os().skip(1).collect();
    let done = words::read(&words)
        .map_err(misused)
        .and_then(|request| run::run(request, &mut Output::new()));
    let status = done.unwrap_or_else(|stop| {
        complain(&stop.text);
        stop.status
    });
    ExitCode::from(status as u8)
}

fn misused(misuse: Misuse) -> Stop {
    let help = match misuse.about {
        Some(command) => format!("barfigol help {}", command.name),
        None => String::from("barfigol --help"),
    };
    Stop {
        status: Status::Misused,
        text: format!("barfigol: {} (see {help})\n", misuse.text),
    }
}

/// Writes to standard error. Where that is closed there is nobody to tell.
fn complain(text: &str) {
    let _ = io::stderr().write_all(text.as_bytes());
}
