//! The steps of a table, to tell beforehand which ones are cheap to evaluate.

use crate::{Node, Table};

/// The steps of all constraints, cut down to the largest `u128`. A number that
/// names nothing adds none.
///
/// ```
/// use barfigol_format::{cost, Node, Table};
///
/// // 1 < 1, for each of three values: 1 and 3 times 3 steps.
/// let table = Table::new()
///     .slot(0, 2)
///     .node(Node::constant(1))
///     .node(Node::below(0, 0))
///     .node(Node::forall(0, 1))
///     .constraint(2);
/// assert_eq!(cost::steps(&table), 10);
/// ```
pub fn steps(table: &Table) -> u128 {
    let mut costs: Vec<u128> = Vec::new();
    for &node in &table.nodes {
        let operands = total(&costs, &node.operands());
        let times = slot_values(table, node);
        costs.push(operands.saturating_mul(times).saturating_add(1));
    }
    total(&costs, &table.constraints)
}

/// What some nodes cost together.
fn total(costs: &[u128], nodes: &[i32]) -> u128 {
    let cost = |&node: &i32| costs.get(usize::try_from(node).ok()?).copied();
    let costs = nodes.iter().filter_map(cost);
    costs.fold(0, u128::saturating_add)
}

/// How often a node's operands are walked.
fn slot_values(table: &Table, node: Node) -> u128 {
    let number = match node.bound_slot() {
        Some(number) => number,
        None => return 1,
    };
    let place = usize::try_from(number).ok();
    let slot = place.and_then(|place| table.slots.get(place));
    slot.map_or(0, |slot| slot.values().into())
}
