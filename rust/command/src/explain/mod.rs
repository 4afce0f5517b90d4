//! Explains a refusal: which field of which record is at fault, and why.
//!
//! The library gives a number and a record. The rest is worked out here from
//! the table's bytes. Nothing here decides anything: where no fault is found
//! that fits the number, the sentence of the number stands alone.

#[cfg(test)]
mod tests;

use barfigol::Refusal;
use barfigol_format::intervals::{self, Beyond};
use barfigol_format::limits::{MOST_BYTES, VALUE_LIMIT};
use barfigol_format::words::numbered;
use barfigol_format::{cost, faults, rows_of, title, Table};

/// What the library was asked.
#[derive(Clone, Copy, Debug)]
pub enum Call<'a> {
    /// To check the table.
    Check,
    /// To translate it, for a list or a file.
    Translate {
        /// The number of the reading.
        choice: u32,
    },
    /// To evaluate it.
    Evaluate {
        /// The number of the reading.
        choice: u32,
        /// The value of each variable.
        assignment: &'a [i32],
        /// The most steps.
        budget: u32,
    },
}

/// The explanation of a refusal, in lines. The first one has the number, the
/// record and the fault; then come the whole record and what the number means.
pub fn explain(call: Call, table: &[u8], refusal: &Refusal) -> String {
    let number = refusal.number();
    let fault = fault(call, table, refusal);
    let meaning = format!("  number {number}: {}\n", refusal.reason());
    let record = match refusal.record() {
        Some(record) => record,
        None => return format!("refused {number}: {fault}\n{meaning}"),
    };
    let title = title(table, record as usize);
    let line = rows_of(table)
        .get(record as usize)
        .map_or(String::new(), |row| format!("  record {record}: {row}\n"));
    format!("refused {number} at record {record} ({title}): {fault}\n{line}{meaning}")
}

/// What is at fault, or the sentence of the number where that is not found.
fn fault(call: Call, table: &[u8], refusal: &Refusal) -> String {
    let faults: Vec<String> = match refusal.number() {
        1..=6 => faults_of_table(table, refusal),
        _ => fault_of_call(call, table, refusal).into_iter().collect(),
    };
    if faults.is_empty() {
        refusal.reason().to_string()
    } else {
        faults.join("; ")
    }
}

/// The faults of the table that have a refusal's number and record.
fn faults_of_table(table: &[u8], refusal: &Refusal) -> Vec<String> {
    let (number, record) = (refusal.number(), refusal.record());
    let faults = faults::of_table(table).into_iter();
    let meant = faults.filter(|fault| (fault.number, fault.record) == (number, record));
    meant.map(|fault| fault.words).collect()
}

/// The fault of a refusal that no record of the table shows by itself.
fn fault_of_call(call: Call, table: &[u8], refusal: &Refusal) -> Option<String> {
    match (*refusal, call) {
        (Refusal::Choice, Call::Translate { choice } | Call::Evaluate { choice, .. }) => Some(
            format!("{choice} is no reading: 1 strict, 2 kleene, 3 relational"),
        ),
        (Refusal::Limit { record: Some(node) }, _) => too_wide(table, node as usize),
        (Refusal::Limit { record: None }, _) => too_large(table),
        (Refusal::Room, Call::Translate { .. }) => {
            Some(format!("the translation is longer than {MOST_BYTES} bytes"))
        }
        (Refusal::Assignment { record }, Call::Evaluate { assignment, .. }) => match record {
            None => wrong_count(table, assignment.len()),
            Some(record) => outside(table, assignment, record as usize),
        },
        (Refusal::Budget, Call::Evaluate { budget, .. }) => Some(too_long(table, budget)),
        _ => None,
    }
}

/// The interval of the node at a record, where it is the first beyond the limit.
fn too_wide(table: &[u8], record: usize) -> Option<String> {
    let table = Table::read(table);
    let beyond = intervals::first_beyond(&table)?;
    if table.first_node_record() + beyond.node != record {
        return None;
    }
    Some(beyond.words())
}

/// A node was met with a value beyond the limit. Which one it was is not told,
/// but it has an interval beyond the limit, or an operand that has one.
fn too_large(table: &[u8]) -> Option<String> {
    let table = Table::read(table);
    let Beyond { node, .. } = intervals::first_beyond(&table)?;
    let record = table.first_node_record() + node;
    Some(format!(
        "a value is beyond ±{VALUE_LIMIT}; the first node that can pass the limit is node {node} (record {record})"
    ))
}

/// The steps of a table, up to a number that is more than anyone can wait for.
fn too_long(table: &[u8], budget: u32) -> String {
    let needed = match u64::try_from(cost::steps(&Table::read(table))) {
        Ok(steps) => numbered(steps, "step"),
        Err(_) => format!("more than {} steps", u64::MAX),
    };
    format!("{needed} needed, the budget is {budget}")
}

fn wrong_count(table: &[u8], given: usize) -> Option<String> {
    let wanted = Table::read(table).variables.len();
    if given == wanted {
        return None;
    }
    let (given, wanted) = (numbered(given, "value"), numbered(wanted, "variable"));
    Some(format!("{given} given for {wanted}"))
}

/// The value outside its domain. The record of variable 0 is 1.
fn outside(table: &[u8], assignment: &[i32], record: usize) -> Option<String> {
    let number = record.checked_sub(1)?;
    let value = assignment.get(number)?;
    let table = Table::read(table);
    let variable = table.variables.get(number)?;
    let (low, high) = (variable.low, variable.high);
    if (low..=high).contains(value) {
        return None;
    }
    Some(format!("value {value} is outside the domain {low}..{high}"))
}
