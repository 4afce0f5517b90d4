//! `list` and `translate`: the translation, as lines or as a table.

use super::{explained, in_numbers, table_of};
use crate::explain::Call;
use crate::output::{self, Output};
use crate::status::{Status, Stop};
use crate::words::{Source, Target};
use barfigol::Choice;
use barfigol_format::pretty;

/// Prints the records of a translation, or the refusal.
pub fn list(choice: u32, source: &Source, out: &mut Output) -> Result<Status, Stop> {
    let table = table_of(source)?;
    match barfigol::translate(Choice(choice), &table) {
        Ok(bytes) => out.text(&pretty(&bytes))?,
        Err(refusal) => {
            out.text(&(in_numbers(&refusal) + "\n"))?;
            let call = Call::Translate { choice };
            return Err(Stop::refused(explained(source, call, &table, &refusal)));
        }
    }
    Ok(Status::Done)
}

/// Writes a translation.
pub fn write(
    choice: u32,
    source: &Source,
    target: &Target,
    out: &mut Output,
) -> Result<Status, Stop> {
    let table = table_of(source)?;
    let bytes = barfigol::translate(Choice(choice), &table).map_err(|refusal| {
        let call = Call::Translate { choice };
        Stop::refused(explained(source, call, &table, &refusal))
    })?;
    output::write(target, &bytes, out)?;
    Ok(Status::Done)
}
