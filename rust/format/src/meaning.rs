//! What a record is called, and what it means.

use crate::before::Before;
use crate::kinds::{self, Field};
use crate::words::{numbered, spelled};
use crate::{rows_of, Row, Type};

/// What the record with this number is called in a table: mark and kind, and
/// the number of what it declares.
///
/// ```
/// use barfigol_format::{title, Node, Table};
///
/// let table = Table::new().variable(0, 1).node(Node::variable(0)).bytes();
/// assert_eq!(title(&table, 2), "ND 3, node 0");
/// assert_eq!(title(&table, 3), "the end of the table");
/// ```
pub fn title(bytes: &[u8], record: usize) -> String {
    let rows = rows_of(bytes);
    let row = match rows.get(record) {
        Some(&row) => row,
        None => return String::from("the end of the table"),
    };
    let before = Before::of(&rows[..record]);
    let start = format!("{} {}", spelled(row.mark), row.kind);
    match declared(&before, row) {
        Some(declared) => format!("{start}, {declared}"),
        None => start,
    }
}

/// What a record declares, with its number.
fn declared(before: &Before, row: Row) -> Option<String> {
    match &row.mark {
        b"VR" => Some(format!("variable {}", before.variables.len())),
        b"SL" => Some(format!("slot {}", before.slots)),
        b"AR" => Some(format!("array {}", before.arrays.len())),
        b"EL" if before.due != Some(0) => {
            let array = before.arrays.len().checked_sub(1)?;
            Some(format!("element {} of array {array}", before.elements))
        }
        b"ND" => Some(format!("node {}", before.nodes.len())),
        b"CN" => Some(format!("constraint {}", before.constraints)),
        _ => None,
    }
}

/// What a record means, such as `node 6: node 5 div node 2`. A record that
/// declares nothing means nothing, and neither does a head out of place.
pub(crate) fn meaning(before: &Before, row: Row) -> Option<String> {
    if row.mark == *b"HD" {
        let records = numbered(row.x, "record");
        return Some(format!("head: {records}")).filter(|_| before.records == 0);
    }
    let declared = declared(before, row)?;
    let means = match &row.mark {
        b"VR" => of_variable(row),
        b"SL" => Some(of_slot(row)),
        b"AR" => of_array(row),
        b"EL" => return of_element(before, row),
        b"ND" => of_node(row),
        b"CN" => Some(format!("node {}", row.x)),
        _ => None,
    };
    Some(match means {
        Some(means) => format!("{declared}: {means}"),
        None => declared,
    })
}

fn of_variable(row: Row) -> Option<String> {
    Some(match Type::of_kind(row.kind)? {
        Type::Bool => String::from("bool"),
        Type::Integer => format!("{}..{}", row.x, row.y),
    })
}

fn of_slot(row: Row) -> String {
    let empty = if row.y < row.x { ", empty" } else { "" };
    format!("{}..{}{empty}", row.x, row.y)
}

fn of_array(row: Row) -> Option<String> {
    let of = Type::of_kind(row.kind)?;
    let elements = numbered(row.y, &of.to_string());
    Some(format!("{elements} from index {}", row.x))
}

fn of_element(before: &Before, row: Row) -> Option<String> {
    let number = before.arrays.len().checked_sub(1)?;
    let array = before.arrays[number];
    let index = i64::from(array.first) + before.elements as i64;
    let place = format!("array {number} at index {index}");
    Some(match (row.kind, array.of) {
        (0, Some(Type::Bool)) => format!("{place}: {}", of_truth(row.x)),
        (0, _) => format!("{place}: {}", row.x),
        (1, _) => format!("{place}: variable {}", row.x),
        _ => place,
    })
}

fn of_node(row: Row) -> Option<String> {
    let kind = kinds::find(row.kind)?;
    let (x, y) = (of_field(kind.x, row.x), of_field(kind.y, row.y));
    Some(kind.written(&x, &y))
}

/// What a field of a node holds.
fn of_field(field: Field, value: i32) -> String {
    match field {
        Field::Unused | Field::Integer => value.to_string(),
        Field::Truth => of_truth(value),
        Field::Variable(_) => format!("variable {value}"),
        Field::Slot => format!("slot {value}"),
        Field::Array(_) => format!("array {value}"),
        Field::Node(_) => format!("node {value}"),
    }
}

fn of_truth(value: i32) -> String {
    match value {
        0 => String::from("false"),
        1 => String::from("true"),
        other => other.to_string(),
    }
}
