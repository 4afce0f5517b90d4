//! `readings`: where the three readings part.

mod look;
mod told;

use super::{explained, table_of};
use crate::explain::Call;
use crate::output::Output;
use crate::status::{Status, Stop};
use crate::words::{Report, Source};
use barfigol::{Reading, Refusal};
use barfigol_format::Table;
use look::Look;

/// Tells where the readings part, as far as the budget goes.
pub fn run(source: &Source, budget: u32, report: Report, out: &mut Output) -> Result<Status, Stop> {
    let table = table_of(source)?;
    barfigol::check(&table).map_err(|refusal: Refusal| {
        Stop::refused(explained(source, Call::Check, &table, &refusal))
    })?;
    let model = Table::read(&table);
    let mut look = Look::at(&model, budget);
    go_through(&table, &model, &mut look, report, out)?;
    if report == Report::Text {
        out.text(&told::summary(&model, &look))?;
    }
    Ok(match (look.parting, look.is_complete) {
        (0, true) => Status::Done,
        (0, false) => Status::CutOff,
        _ => Status::No,
    })
}

/// Looks at all assignments that the budget allows. Where there is no
/// constraint the readings have nothing to part in.
fn go_through(
    table: &[u8],
    model: &Table,
    look: &mut Look,
    report: Report,
    out: &mut Output,
) -> Result<(), Stop> {
    if model.constraints.is_empty() {
        look.is_complete = true;
        return Ok(());
    }
    for values in model.assignments() {
        if !look.has_room() || out.is_gone() {
            return Ok(());
        }
        let said = Reading::ALL.map(|reading| {
            let found = barfigol::evaluate(reading, table, &values, u32::MAX);
            found.map(|found| found.verdicts)
        });
        let parting = look.take(&said);
        if report == Report::Text {
            out.text(&told::at(&values, &said, &parting))?;
        }
    }
    look.is_complete = true;
    Ok(())
}
