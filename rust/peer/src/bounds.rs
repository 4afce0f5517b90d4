//! The interval of each integer node, worked out before a translation.

use crate::answer::{Reason, Refusal};
use crate::kinds::{self, Type};
use crate::record::{ArrayNumber, NodeNumber, Record, MOST_ARRAYS, MOST_RECORDS, VALUE_LIMIT};
use crate::table::Sound;

/// The least and the greatest value that a node may take.
///
/// Operands are within the limit, so no end overflows.
#[derive(Clone, Copy, Debug, Default, PartialEq, Eq)]
struct Interval {
    low: i64,
    high: i64,
}

impl Interval {
    const fn new(low: i64, high: i64) -> Interval {
        Interval { low, high }
    }

    fn within_limit(self) -> bool {
        -VALUE_LIMIT <= self.low && self.high <= VALUE_LIMIT
    }

    fn largest_magnitude(self) -> i64 {
        self.low.abs().max(self.high.abs())
    }

    fn hull(self, other: Interval) -> Interval {
        Interval::new(self.low.min(other.low), self.high.max(other.high))
    }
}

/// Refuses at the first node whose interval is beyond the limit, whether a
/// constraint reaches it or not.
pub(crate) fn within_limit(table: &Sound<'_>) -> Result<(), Refusal> {
    let hulls = array_hulls(table);
    let mut kept = [(0, 0); MOST_RECORDS];
    for node in table.node_numbers() {
        let record = table.node(node);
        if kinds::yields(record.kind) == Some(Type::Integer) {
            let interval = interval(table, record, &kept, &hulls);
            if !interval.within_limit() {
                return Err(Refusal::at(Reason::Limit, table.node_record(node)));
            }
            kept[usize::from(node.0)] = (interval.low as i32, interval.high as i32);
        }
    }
    Ok(())
}

/// The hull of each array's elements, variables taken by their domains.
fn array_hulls(table: &Sound<'_>) -> [Interval; MOST_ARRAYS as usize] {
    let mut hulls = [Interval::new(0, 0); MOST_ARRAYS as usize];
    for number in 0..table.arrays {
        let array = table.array(ArrayNumber(number as u8));
        let hull = array
            .elements()
            .map(|element| element_interval(table, element))
            .reduce(Interval::hull);
        hulls[usize::from(number)] = hull.unwrap_or_default();
    }
    hulls
}

fn element_interval(table: &Sound<'_>, element: Record) -> Interval {
    match element.kind {
        0 => constant(element.x),
        _ => ends(table.domain(element.variable_x())),
    }
}

fn constant(value: i32) -> Interval {
    Interval::new(i64::from(value), i64::from(value))
}

fn ends((low, high): (i32, i32)) -> Interval {
    Interval::new(i64::from(low), i64::from(high))
}

/// The interval of an integer node from those of the nodes before it, which
/// are kept as pairs of ends.
fn interval(
    table: &Sound<'_>,
    record: Record,
    kept: &[(i32, i32); MOST_RECORDS],
    hulls: &[Interval; MOST_ARRAYS as usize],
) -> Interval {
    let of = |node: NodeNumber| ends(kept[usize::from(node.0)]);
    match record.kind {
        kinds::CONSTANT => constant(record.x),
        kinds::VARIABLE => ends(table.domain(record.variable_x())),
        kinds::SLOT => {
            let (first, last) = table.range(record.slot_x());
            ends((first, last.max(first)))
        }
        kinds::NEGATE => {
            let operand = of(record.node_x());
            Interval::new(-operand.high, -operand.low)
        }
        kinds::BOOL_TO_INT => Interval::new(0, 1),
        kinds::LOOKUP => hulls[usize::from(record.array_x().0)],
        kinds::SUM => {
            let body = of(record.node_y());
            let values = table.slot_values(record.slot_x());
            Interval::new(body.low * values, body.high * values)
        }
        kind => arithmetic(kind, of(record.node_x()), of(record.node_y())),
    }
}

/// The interval of a binary integer operation.
fn arithmetic(kind: u8, a: Interval, b: Interval) -> Interval {
    match kind {
        kinds::ADD => Interval::new(a.low + b.low, a.high + b.high),
        kinds::SUBTRACT => Interval::new(a.low - b.high, a.high - b.low),
        kinds::MULTIPLY => {
            let lows = Interval::new(a.low * b.low, a.low * b.low);
            [a.low * b.high, a.high * b.low, a.high * b.high]
                .iter()
                .fold(lows, |all, &product| {
                    all.hull(Interval::new(product, product))
                })
        }
        kinds::DIV => Interval::new(-a.largest_magnitude(), a.largest_magnitude()),
        kinds::MOD => {
            let most = (b.largest_magnitude() - 1).max(0);
            Interval::new(-most, most)
        }
        kinds::MIN => Interval::new(a.low.min(b.low), a.high.min(b.high)),
        _ => Interval::new(a.low.max(b.low), a.high.max(b.high)),
    }
}
