//! The order of sections: faults of number 2.

use crate::before::Before;
use crate::words::{numbered, spelled};
use crate::Row;

/// The marks of each section, in order.
const SECTIONS: [&[&[u8; 2]]; 6] = [
    &[b"HD"],
    &[b"VR"],
    &[b"SL"],
    &[b"AR", b"EL"],
    &[b"ND"],
    &[b"CN"],
];

/// The place of a mark in the order of sections. Elements are in the section
/// of arrays.
pub(crate) fn section(mark: [u8; 2]) -> Option<usize> {
    SECTIONS.iter().position(|marks| marks.contains(&&mark))
}

/// Why a record may not stand where it does.
pub(crate) fn fault(before: &Before, row: Row) -> Option<String> {
    let mark = || spelled(row.mark);
    match &row.mark {
        b"HD" if before.records == 0 => None,
        _ if before.records == 0 => {
            let mark = mark();
            Some(format!("the mark is {mark}, and the first record is HD"))
        }
        b"HD" => Some(String::from("only the first record is HD")),
        b"EL" if before.due != Some(0) => None,
        b"EL" => Some(String::from("no array lacks an element here")),
        other if section(*other).is_none() => Some(format!("{} is no mark", mark())),
        other => lacking(before).or_else(|| {
            if section(before.mark) <= section(*other) {
                return None;
            }
            let (mark, last) = (mark(), spelled(before.mark));
            Some(format!(
                "{mark} stands after {last}, and the order is HD VR SL AR (EL) ND CN"
            ))
        }),
    }
}

/// Says that the last array has too few elements, if it has.
pub(crate) fn lacking(before: &Before) -> Option<String> {
    before.due.filter(|&due| due > 0)?;
    let number = before.arrays.len().checked_sub(1)?;
    let wanted = numbered(before.arrays[number].wanted, "element");
    let elements = before.elements;
    Some(format!(
        "array {number} has {elements} of its {wanted} before it"
    ))
}
