//! A table as text, with what its records mean and what is wrong with them.

use crate::before::Before;
use crate::faults::{self, Fault};
use crate::intervals;
use crate::meaning::meaning;
use crate::row::rest_line;
use crate::{rest_of, rows_of, Row, Table};
use std::collections::BTreeMap;

/// Notes begin in this column, unless a record reaches further.
const NOTES: usize = 16;

/// Any bytes as the lines of a table: a record to a line, with what it means
/// behind two spaces or more, and behind `!` what is wrong with it.
///
/// What the check refuses is marked `refused` with its number. Further faults
/// are marked `also`: those that do not just follow from an earlier one. In a
/// table without faults the first node that translation refuses with 8 is
/// marked. Faults of the table as a whole stand on lines of their own, behind
/// `#`. There are no control characters but the ends of lines, and
/// [`assemble`](crate::assemble) gives back the same bytes.
///
/// ```
/// use barfigol_format::{show, Node, Table};
///
/// let table = Table::new().node(Node::constant(1)).node(Node::div(0, 7));
/// assert_eq!(
///     show(&table.bytes()),
///     "HD 1 0 3 0      head: 3 records\n\
///      ND 1 0 1 0      node 0: 1\n\
///      ND 9 0 0 7      node 1: node 0 div node 7  ! refused 4: y = 7 names no earlier node\n"
/// );
/// ```
pub fn show(bytes: &[u8]) -> String {
    let rows = rows_of(bytes);
    let rest = rest_of(bytes);
    let mut marks = marks(bytes);
    let mut text = String::new();
    for mark in marks.remove(&None).unwrap_or_default() {
        text.push_str(&format!("# {mark}\n"));
    }
    let mut before = Before::new();
    for (record, &row) in rows.iter().enumerate() {
        let marks = marks.remove(&Some(record as u32)).unwrap_or_default();
        text.push_str(&line(&before, row, &marks));
        before.push(row);
    }
    if !rest.is_empty() {
        text.push_str(&format!("{}\n", rest_line(rest)));
    }
    // What is left is about the end of the table.
    for mark in marks.into_values().flatten() {
        text.push_str(&format!("# the end: {mark}\n"));
    }
    text
}

/// The line of a record, with its meaning and its marks.
fn line(before: &Before, row: Row, marks: &[String]) -> String {
    let mut notes: Vec<String> = meaning(before, row).into_iter().collect();
    notes.extend(marks.iter().map(|mark| format!("! {mark}")));
    let row = row.to_string();
    if notes.is_empty() {
        return format!("{row}\n");
    }
    let width = NOTES - 2;
    format!("{row:width$}  {}\n", notes.join("  "))
}

/// The marks of each record, and of the table as a whole.
fn marks(bytes: &[u8]) -> BTreeMap<Option<u32>, Vec<String>> {
    let faults = faults::of_table(bytes);
    let mut marks: BTreeMap<Option<u32>, Vec<String>> = BTreeMap::new();
    let first = faults.first().map(|fault| (fault.number, fault.record));
    let mut last = None;
    for Fault {
        number,
        record,
        words,
    } in faults
    {
        let of_record = marks.entry(record).or_default();
        match of_record.last_mut() {
            Some(mark) if last == Some((number, record)) => mark.push_str(&format!("; {words}")),
            _ if first == Some((number, record)) => {
                of_record.push(format!("refused {number}: {words}"));
            }
            _ => of_record.push(format!("also {number}: {words}")),
        }
        last = Some((number, record));
    }
    if first.is_none() {
        marks.extend(beyond_limit(bytes));
    }
    marks
}

/// The mark of the first node of a sound table that is beyond the limit.
fn beyond_limit(bytes: &[u8]) -> Option<(Option<u32>, Vec<String>)> {
    let table = Table::read(bytes);
    let beyond = intervals::first_beyond(&table)?;
    let record = table.first_node_record() + beyond.node;
    let mark = format!("translate refuses 8: {}", beyond.words());
    Some((Some(record as u32), vec![mark]))
}
