//! The steps of an evaluation. They depend on the table alone.

use crate::kinds::{self, Operand};
use crate::record::{Record, MOST_RECORDS};
use crate::table::Sound;

/// The least cost that no budget allows. Larger costs are cut down to it.
const BEYOND_BUDGETS: u64 = 1 << 32;

/// The steps of all constraints, or `BEYOND_BUDGETS` where they are more.
///
/// A shared node is counted each time, but looked at once.
pub(crate) fn total(table: &Sound<'_>) -> u64 {
    let mut costs = [0; MOST_RECORDS];
    for node in table.node_numbers() {
        let cost = cost_of(table, table.node(node), &costs);
        costs[usize::from(node.0)] = cost.min(BEYOND_BUDGETS);
    }
    let sum: u64 = table
        .constraint_nodes()
        .map(|node| costs[usize::from(node.0)])
        .sum();
    sum.min(BEYOND_BUDGETS)
}

/// 1 plus the operands' costs, the body of a quantifier or sum taken once for
/// each value of its slot.
///
/// No overflow: 10,000 times two costs of at most 2^32 is far below 2^64.
#[inline]
fn cost_of(table: &Sound<'_>, record: Record, costs: &[u64; MOST_RECORDS]) -> u64 {
    let shape = match kinds::shape(record.kind) {
        Some(shape) => shape,
        None => return 0,
    };
    let of_operand = |operand: Operand, field: i32| match operand {
        Operand::Node(_) => costs[field as usize],
        _ => 0,
    };
    let operands = of_operand(shape.x, record.x) + of_operand(shape.y, record.y);
    match shape.x {
        Operand::Slot => 1 + table.slot_values(record.slot_x()) as u64 * operands,
        _ => 1 + operands,
    }
}
