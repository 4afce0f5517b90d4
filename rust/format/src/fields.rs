//! Kinds, unused fields and numbers by themselves: faults of number 3.

use crate::before::Before;
use crate::kinds::{self, Field};
use crate::limits::{
    INDEX_LIMIT, MOST_ARRAYS, MOST_ELEMENTS, MOST_SLOTS, MOST_SLOT_VALUES, MOST_VARIABLES,
};
use crate::{Row, Type};

/// Faults as they are found.
#[derive(Default)]
struct Found(Vec<String>);

impl Found {
    /// Notes a fault unless a condition holds.
    fn unless(&mut self, holds: bool, fault: impl FnOnce() -> String) {
        if !holds {
            self.0.push(fault());
        }
    }

    /// Notes a field that must be 0 and is not.
    fn unused(&mut self, name: &str, value: i32) {
        self.unless(value == 0, || format!("{name} = {value} is not 0"));
    }

    /// Notes a number that is further from 0 than an index may be.
    fn within_reach(&mut self, name: &str, value: i32) {
        let holds = (-INDEX_LIMIT..=INDEX_LIMIT).contains(&value);
        self.unless(holds, || {
            format!("{name} = {value} is beyond ±{INDEX_LIMIT}")
        });
    }

    /// Notes the first record that is one too many.
    fn room(&mut self, before: usize, most: usize, what: &str) {
        let fault = || format!("there are {most} {what} before it, and no more are allowed");
        self.unless(before != most, fault);
    }
}

/// The faults of a record's fields, each by itself. `counted` is how many
/// records the table has, if that can be told.
pub(crate) fn faults(before: &Before, row: Row, counted: Option<usize>) -> Vec<String> {
    let mut found = Found::default();
    found.unused("aux", i32::from(row.aux));
    match &row.mark {
        b"HD" => head(row, counted, &mut found),
        b"VR" => variable(before, row, &mut found),
        b"SL" => slot(before, row, &mut found),
        b"AR" => array(before, row, &mut found),
        b"EL" => element(before, row, &mut found),
        b"ND" => node(row, &mut found),
        b"CN" => {
            found.unused("kind", i32::from(row.kind));
            found.unused("y", row.y);
        }
        _ => {}
    }
    found.0
}

fn head(row: Row, counted: Option<usize>, found: &mut Found) {
    let Row { kind, x, y, .. } = row;
    found.unless(kind == 1, || format!("kind = {kind} is not 1"));
    if let Some(records) = counted {
        found.unless(usize::try_from(x) == Ok(records), || {
            format!("x = {x} is not the number of records, {records}")
        });
    }
    found.unused("y", y);
}

fn variable(before: &Before, row: Row, found: &mut Found) {
    let Row { kind, x, y, .. } = row;
    match Type::of_kind(kind) {
        Some(Type::Bool) => {
            found.unless(x == 0, || format!("x = {x} is not 0, the least bool"));
            found.unless(y == 1, || format!("y = {y} is not 1, the greatest bool"));
        }
        Some(Type::Integer) => found.unless(x <= y, || format!("x = {x} is above y = {y}")),
        None => found.unless(false, || neither_type(kind)),
    }
    found.room(before.variables.len(), MOST_VARIABLES, "variables");
}

fn slot(before: &Before, row: Row, found: &mut Found) {
    let Row { kind, x, y, .. } = row;
    let values = i64::from(y) - i64::from(x) + 1;
    found.unused("kind", i32::from(kind));
    found.within_reach("x", x);
    found.within_reach("y", y);
    found.unless(values <= MOST_SLOT_VALUES, || {
        format!("from x = {x} to y = {y} are {values} values, more than {MOST_SLOT_VALUES}")
    });
    found.room(before.slots, MOST_SLOTS, "slots");
}

fn array(before: &Before, row: Row, found: &mut Found) {
    let Row { kind, x, y, .. } = row;
    found.unless(Type::of_kind(kind).is_some(), || neither_type(kind));
    found.within_reach("x", x);
    found.unless((1..=MOST_ELEMENTS).contains(&y), || {
        format!("y = {y} is no count of elements from 1 to {MOST_ELEMENTS}")
    });
    found.room(before.arrays.len(), MOST_ARRAYS, "arrays");
}

fn element(before: &Before, row: Row, found: &mut Found) {
    let Row { kind, x, y, .. } = row;
    let of_bools = before.element_type() == Some(Type::Bool);
    match kind {
        0 if of_bools => found.unless(is_truth(x), || not_truth(x)),
        0 | 1 => {}
        _ => found.unless(false, || {
            format!("kind = {kind} is neither 0 (constant) nor 1 (variable)")
        }),
    }
    found.unused("y", y);
}

fn node(row: Row, found: &mut Found) {
    let Row { kind, x, y, .. } = row;
    let shape = match kinds::find(kind) {
        Some(shape) => shape,
        None => return found.unless(false, || format!("kind = {kind} does not exist")),
    };
    if shape.x == Field::Truth {
        found.unless(is_truth(x), || not_truth(x));
    }
    if shape.y == Field::Unused {
        found.unused("y", y);
    }
}

fn is_truth(x: i32) -> bool {
    (0..=1).contains(&x)
}

fn not_truth(x: i32) -> String {
    format!("x = {x} is neither 0 (false) nor 1 (true)")
}

fn neither_type(kind: u8) -> String {
    format!("kind = {kind} is neither 0 (bool) nor 1 (integer)")
}
