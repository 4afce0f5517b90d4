//! Does what is asked for.

mod check;
mod evaluate;
mod readings;
mod text;
mod translate;

use crate::explain::{explain, Call};
use crate::help;
use crate::input;
use crate::output::Output;
use crate::status::{Status, Stop};
use crate::words::{Request, Source};
use barfigol::Refusal;

/// Does what is asked for.
pub fn run(request: Request, out: &mut Output) -> Result<Status, Stop> {
    match request {
        Request::Help(page) => printed(&help::page(&page), out),
        Request::Version => {
            let version = env!("CARGO_PKG_VERSION");
            printed(&format!("{} {version}\n", crate::description::NAME), out)
        }
        Request::Check(tables, report) => check::run(&tables, report, out),
        Request::List(choice, table) => translate::list(choice, &table, out),
        Request::Translate(choice, table, target) => translate::write(choice, &table, &target, out),
        Request::Evaluate(evaluation) => evaluate::run(&evaluation, out),
        Request::Readings(table, budget, report) => readings::run(&table, budget, report, out),
        Request::Show(table) => text::show(&table, out),
        Request::Assemble(text, target) => text::assemble(&text, &target, out),
    }
}

fn printed(text: &str, out: &mut Output) -> Result<Status, Stop> {
    out.text(text)?;
    Ok(Status::Done)
}

/// Something cannot be read.
fn unread(source: &Source, why: &str) -> Stop {
    Stop::failed(&format!("{}: {why}", input::name(source)))
}

fn table_of(source: &Source) -> Result<Vec<u8>, Stop> {
    input::table(source).map_err(|why| unread(source, &why))
}

/// A refusal as `list` prints it: its number and its record, 0 for none.
fn in_numbers(refusal: &Refusal) -> String {
    let (number, record) = numbers(refusal);
    format!("refused {number} {record}")
}

/// The number and the record of a refusal, 0 for none.
fn numbers(refusal: &Refusal) -> (u32, u32) {
    (refusal.number(), refusal.record().unwrap_or(0))
}

/// The explanation of a refusal, which begins with the file.
fn explained(source: &Source, call: Call, table: &[u8], refusal: &Refusal) -> String {
    format!("{}: {}", input::name(source), explain(call, table, refusal))
}

/// The first line of an explanation.
fn first_line(call: Call, table: &[u8], refusal: &Refusal) -> String {
    let explanation = explain(call, table, refusal);
    explanation.lines().next().unwrap_or("").to_string()
}
