//! What is wrong with a table, in words: faults of numbers 1 to 6.
//!
//! The first fault is the one that the check refuses. Behind it stand further
//! ones where they do not just follow from an earlier one. So the type and the
//! free slots of a faulty record are in doubt, and what names it is taken to be
//! right. A record that stands out of place has no other fault; behind it
//! numbers may name other things than they should, so that only faults of
//! numbers 2 and 3 are told. Of records that are too many the first is at fault.

use crate::before::Before;
use crate::limits::MOST_BYTES;
use crate::words::numbered;
use crate::{fields, names, order};
use crate::{rest_of, rows_of, Row, ROW_BYTES};

/// A fault of a table.
#[derive(Clone, Debug, PartialEq, Eq)]
pub struct Fault {
    /// The number of the refusal that the fault calls for, 1 to 6.
    pub number: u32,
    /// The record at fault. Number 1 is about the table as a whole. The number
    /// of records stands for the end of the table.
    pub record: Option<u32>,
    /// What is wrong.
    pub words: String,
}

/// The faults of a table, by record and in it by number. A sound table has
/// none.
///
/// ```
/// use barfigol_format::{faults, Node, Table};
///
/// let table = Table::new().node(Node::constant(1)).node(Node::add(0, 7));
/// let found = faults::of_table(&table.bytes());
/// assert_eq!((found[0].number, found[0].record), (4, Some(2)));
/// assert_eq!(found[0].words, "y = 7 names no earlier node");
/// ```
pub fn of_table(bytes: &[u8]) -> Vec<Fault> {
    let rows = rows_of(bytes);
    let is_whole = rest_of(bytes).is_empty();
    let counted = Some(rows.len()).filter(|_| is_whole);
    let mut found: Vec<Fault> = Vec::new();
    let mut note = |number: u32, record: Option<usize>, words: String| {
        found.push(Fault {
            number,
            record: record.map(|record| record as u32),
            words,
        });
    };
    if let Some(words) = of_length(bytes.len()) {
        note(1, None, words);
    }
    let mut before = Before::new();
    for (record, &row) in rows.iter().enumerate() {
        for (number, words) in of_record(&before, row, counted) {
            note(number, Some(record), words);
        }
        before.push(row);
    }
    if let Some(words) = order::lacking(&before).filter(|_| is_whole) {
        note(2, Some(rows.len()), words);
    }
    found
}

/// Number 1: the length.
fn of_length(length: usize) -> Option<String> {
    if length < ROW_BYTES {
        let bytes = numbered(length, "byte");
        Some(format!("{bytes} of table, fewer than {ROW_BYTES}"))
    } else if length > MOST_BYTES {
        Some(format!("more than {MOST_BYTES} bytes of table"))
    } else if length % ROW_BYTES != 0 {
        let bytes = numbered(length, "byte");
        Some(format!("{bytes} of table, no multiple of {ROW_BYTES}"))
    } else {
        None
    }
}

/// The faults of one record with their numbers, 2 to 6 upward. `counted` is how
/// many records the table has, if that can be told.
pub(crate) fn of_record(before: &Before, row: Row, counted: Option<usize>) -> Vec<(u32, String)> {
    if let Some(words) = order::fault(before, row) {
        return vec![(2, words)];
    }
    let mut found: Vec<(u32, String)> = Vec::new();
    let mut note = |number: u32, words: Vec<String>| {
        found.extend(words.into_iter().map(|words| (number, words)));
    };
    note(3, fields::faults(before, row, counted));
    if !before.in_doubt {
        note(4, names::of_nothing(before, row));
        note(5, names::of_wrong_type(before, row));
        note(6, names::of_open_node(before, row));
    }
    found
}
