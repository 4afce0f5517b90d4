//! `show` and `assemble`: a table as text, and back.

use super::unread;
use crate::input;
use crate::output::{self, Output};
use crate::status::{Status, Stop};
use crate::words::{Source, Target};

/// The bytes of the longest file that is shown: far more than a table has, so
/// that a damaged one can be looked at.
const MOST_SHOWN: usize = 1 << 20;
/// The bytes of the longest text: lines of what can be shown, with their notes.
const MOST_TEXT: usize = 32 << 20;

/// Prints the records of a table with what they mean.
pub fn show(source: &Source, out: &mut Output) -> Result<Status, Stop> {
    let bytes = input::whole(source, MOST_SHOWN).map_err(|why| unread(source, &why))?;
    out.text(&barfigol_format::show(&bytes))?;
    Ok(Status::Done)
}

/// Makes a table of a text.
pub fn assemble(source: &Source, target: &Target, out: &mut Output) -> Result<Status, Stop> {
    let text = input::whole(source, MOST_TEXT).map_err(|why| unread(source, &why))?;
    let table = barfigol_format::assemble(text).map_err(|error| {
        let (name, line) = (input::name(source), error.line());
        Stop::refused(format!("{name}:{line}: refused: {}\n", error.problem()))
    })?;
    output::write(target, &table, out)?;
    Ok(Status::Done)
}
