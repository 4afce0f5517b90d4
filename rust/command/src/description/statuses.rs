//! The exit statuses.

use crate::status::Status;

/// What each exit status says. A number means the same for every sub-command.
pub const STATUSES: [(Status, &str); 5] = [
    (Status::Done, "done; for evaluate: all true; for readings: they part nowhere"),
    (
        Status::Refused,
        "refused: a table by the library, with its number and record, or a text by assemble",
    ),
    (Status::Misused, "misuse, or a file cannot be read or written"),
    (
        Status::No,
        "the answer is no: not all true (evaluate), or the readings part (readings)",
    ),
    (
        Status::CutOff,
        "the budget ended before the last assignment, and the readings part at none before (readings)",
    ),
];
