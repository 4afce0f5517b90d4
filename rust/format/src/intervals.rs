//! The intervals of integer nodes, up to the first beyond the limit.

use crate::limits::VALUE_LIMIT;
use crate::{Element, Node, Slot, Table};

/// A node whose interval is beyond the limit.
#[derive(Clone, Copy, Debug, PartialEq, Eq)]
pub struct Beyond {
    /// The number of the node.
    pub node: usize,
    /// The least value of its interval.
    pub low: i64,
    /// The greatest value.
    pub high: i64,
}

impl Beyond {
    /// Says which values the node may take.
    pub fn words(&self) -> String {
        let Beyond { low, high, .. } = self;
        format!("its values lie in {low}..{high}, beyond ±{VALUE_LIMIT}")
    }
}

type Interval = (i64, i64);

/// The first node of a sound table whose interval is beyond the limit. The
/// intervals before it are within, so nothing here overflows.
pub fn first_beyond(table: &Table) -> Option<Beyond> {
    let mut intervals: Vec<Interval> = Vec::new();
    for (number, &node) in table.nodes.iter().enumerate() {
        let (low, high) = interval(table, &intervals, node)?;
        if low < -VALUE_LIMIT || high > VALUE_LIMIT {
            let node = number;
            return Some(Beyond { node, low, high });
        }
        intervals.push((low, high));
    }
    None
}

/// The interval of a node after those of the nodes before it. A Boolean node
/// counts as 0..0, and nothing is given where a number names nothing. The
/// numbers are those of the table of kinds.
fn interval(table: &Table, before: &[Interval], node: Node) -> Option<Interval> {
    let of = |number: i32| before.get(usize::try_from(number).ok()?).copied();
    let (x, y) = (node.x, node.y);
    Some(match node.kind {
        1 => (i64::from(x), i64::from(x)),
        3 => domain(table, x)?,
        5 => range(slot(table, x)?),
        6..=10 | 12 | 13 => arithmetic(node.kind, of(x)?, of(y)?),
        11 => (-of(x)?.1, -of(x)?.0),
        14 => (0, 1),
        15 => hull(table, x)?,
        17 => {
            let (low, high) = of(y)?;
            let count = i64::from(slot(table, x)?.values());
            (low * count, high * count)
        }
        _ => (0, 0),
    })
}

fn arithmetic(kind: u8, a: Interval, b: Interval) -> Interval {
    match kind {
        6 => (a.0 + b.0, a.1 + b.1),
        7 => (a.0 - b.1, a.1 - b.0),
        8 => {
            let products = [a.0 * b.0, a.0 * b.1, a.1 * b.0, a.1 * b.1];
            let least = products.iter().fold(i64::MAX, |least, &p| least.min(p));
            let most = products.iter().fold(i64::MIN, |most, &p| most.max(p));
            (least, most)
        }
        9 => (-magnitude(a), magnitude(a)),
        10 => {
            let most = (magnitude(b) - 1).max(0);
            (-most, most)
        }
        12 => (a.0.min(b.0), a.1.min(b.1)),
        _ => (a.0.max(b.0), a.1.max(b.1)),
    }
}

fn magnitude((low, high): Interval) -> i64 {
    low.abs().max(high.abs())
}

fn domain(table: &Table, number: i32) -> Option<Interval> {
    let variable = table.variables.get(usize::try_from(number).ok()?)?;
    Some((i64::from(variable.low), i64::from(variable.high)))
}

fn slot(table: &Table, number: i32) -> Option<Slot> {
    table.slots.get(usize::try_from(number).ok()?).copied()
}

fn range(slot: Slot) -> Interval {
    let first = i64::from(slot.first);
    (first, i64::from(slot.last).max(first))
}

/// The least interval that holds all elements of an array.
fn hull(table: &Table, number: i32) -> Option<Interval> {
    let array = table.arrays.get(usize::try_from(number).ok()?)?;
    let mut hull = (i64::MAX, i64::MIN);
    for element in &array.elements {
        let (low, high) = match *element {
            Element::Constant(value) => (i64::from(value), i64::from(value)),
            Element::Variable(variable) => domain(table, variable)?,
        };
        hull = (hull.0.min(low), hull.1.max(high));
    }
    Some(hull)
}
