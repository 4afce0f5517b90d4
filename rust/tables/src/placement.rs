//! A model that places two buffers in three memory banks.
//!
//! Banks 0 and 1 have lines of 16 and 32 bytes. Bank 2 is uncached: its line
//! width is 0, and it has no entry in the list of limits. Where a buffer goes
//! to bank 2, a rule may divide by 0 or look one past the end.

use barfigol_format::{Node, Table};

/// The line width of each bank, 0 for the uncached one.
const WIDTHS: [i32; 3] = [16, 32, 0];
/// How many lines may be used in each cached bank.
const LIMITS: [i32; 2] = [4, 2];
/// The bytes of the frame, and the most lines that it may take.
const FRAME_BYTES: i32 = 96;
const FRAME_LINES: i32 = 2;
/// The lines that the log needs.
const LOG_LINES: i32 = 3;

/// Variable 0 is the frame's bank, variable 1 the log's. Three rules:
///
/// 1. `width[frame] = 0 ∨ 96 div width[frame] ≤ 2`
/// 2. `¬(limit[log] < 3)`
/// 3. `frame = log → width[frame] = 0`
pub fn placement() -> Table {
    let last_bank = WIDTHS.len() as i32 - 1;
    let mut table = Table::new()
        .variable(0, last_bank)
        .variable(0, last_bank)
        .constants(0, &WIDTHS)
        .constants(0, &LIMITS);
    let frame = table.push(Node::variable(0));
    let log = table.push(Node::variable(1));

    let width = table.push(Node::lookup(0, frame));
    let zero = table.push(Node::constant(0));
    let uncached = table.push(Node::equal(width, zero));
    let bytes = table.push(Node::constant(FRAME_BYTES));
    let lines = table.push(Node::div(bytes, width));
    let most_lines = table.push(Node::constant(FRAME_LINES));
    let few_lines = table.push(Node::at_most(lines, most_lines));
    let frame_fits = table.push(Node::or(uncached, few_lines));

    let limit = table.push(Node::lookup(1, log));
    let log_lines = table.push(Node::constant(LOG_LINES));
    let too_low = table.push(Node::below(limit, log_lines));
    let log_fits = table.push(Node::not(too_low));

    let together = table.push(Node::equal(frame, log));
    let shared_uncached = table.push(Node::implies(together, uncached));

    table
        .constraint(frame_fits)
        .constraint(log_fits)
        .constraint(shared_uncached)
}

/// Rule 2 in two forms that are easily taken for the same, for the log's bank
/// alone: `¬(limit[log] < 3)` and `3 ≤ limit[log]`.
pub fn two_forms() -> Table {
    let last_bank = WIDTHS.len() as i32 - 1;
    let mut table = Table::new().variable(0, last_bank).constants(0, &LIMITS);
    let log = table.push(Node::variable(0));
    let limit = table.push(Node::lookup(0, log));
    let log_lines = table.push(Node::constant(LOG_LINES));
    let too_low = table.push(Node::below(limit, log_lines));
    let not_too_low = table.push(Node::not(too_low));
    let high_enough = table.push(Node::at_most(log_lines, limit));
    table.constraint(not_too_low).constraint(high_enough)
}
