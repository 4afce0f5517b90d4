//! Checks constraint tables, evaluates them under three readings, and
//! translates them into tables with nothing undefined.
//!
//! A table is a list of records of twelve bytes. The readings are chosen by
//! number: 1 strict, 2 Kleene, 3 relational. [`check()`], [`evaluate()`] and
//! [`translate()`] allocate nothing.

#![forbid(unsafe_code)]
#![warn(missing_docs)]

mod answer;
mod bounds;
mod check;
mod cost;
mod evaluate;
mod kinds;
mod listing;
mod reading;
mod record;
mod table;
mod translate;

pub use answer::Answer;

/// Checks a table.
///
/// ```
/// // A table of one record: the head, which counts itself.
/// let mut table = *b"HD\x01\x00\x01\x00\x00\x00\x00\x00\x00\x00";
/// assert_eq!(barfigol_peer::check(&table).number, 0);
///
/// // A wrong count is refused with 3 at record 0.
/// table[4] = 2;
/// let answer = barfigol_peer::check(&table);
/// assert_eq!((answer.number, answer.record), (3, 0));
/// ```
pub fn check(table: &[u8]) -> Answer {
    match check::sound(table) {
        Ok(_) => Answer::default(),
        Err(refusal) => refusal.into(),
    }
}

/// Evaluates the constraints of a table for one assignment.
///
/// Writes one byte for each constraint: 0 false, 1 true, 2 undefined. A
/// refusal leaves `verdicts` as it was.
///
/// ```
/// // y in 0..1, not (1 / y = 1), at y = 0.
/// let table = barfigol_tables::trials::p4().bytes();
/// let mut verdicts = [9; 2];
/// let answer = barfigol_peer::evaluate(2, &table, &[0], 6, &mut verdicts);
/// assert_eq!((answer.number, answer.steps, answer.all_true), (0, 6, false));
/// assert_eq!(verdicts, [2, 9]);
///
/// // One step more than the budget.
/// let answer = barfigol_peer::evaluate(2, &table, &[0], 5, &mut verdicts);
/// assert_eq!(answer.number, 11);
/// ```
pub fn evaluate(
    choice: u32,
    table: &[u8],
    assignment: &[i32],
    budget: u32,
    verdicts: &mut [u8],
) -> Answer {
    evaluate::evaluate(choice, table, assignment, budget, verdicts).unwrap_or_else(Answer::from)
}

/// Translates a table under a reading.
///
/// Writes the translated table from byte 0 of `out`. A refusal leaves `out` as
/// it was.
///
/// ```
/// let table = barfigol_tables::trials::p4().bytes();
/// let mut out = [0; 300];
/// let answer = barfigol_peer::translate(3, &table, &mut out);
/// assert_eq!((answer.number, answer.length), (0, 240));
/// assert_eq!(barfigol_peer::check(&out[..240]).number, 0);
/// ```
pub fn translate(choice: u32, table: &[u8], out: &mut [u8]) -> Answer {
    translate::translate(choice, table, out).unwrap_or_else(Answer::from)
}

/// The text that the listing program prints for its standard input: one digit
/// of choice, then the table.
///
/// ```
/// let input = b"0HD\x01\x00\x01\x00\x00\x00\x00\x00\x00\x00";
/// assert_eq!(barfigol_peer::listing(input), b"refused 7 0\n");
///
/// let input = b"1HD\x01\x00\x01\x00\x00\x00\x00\x00\x00\x00";
/// assert_eq!(barfigol_peer::listing(input), b"HD 1 0 1 0\n");
/// ```
pub fn listing(input: &[u8]) -> Vec<u8> {
    listing::listing(input)
}
