//! Tables at the edges of what is allowed.

use barfigol_format::{Element, Node, Table, Type};

/// Ends a table with a constraint that is true.
fn with_true_constraint(table: Table) -> Table {
    let node = table.nodes.len() as i32;
    table.node(Node::truth(1)).constraint(node)
}

/// A table with this many variables: 256 are allowed.
pub fn variables(count: usize) -> Table {
    let table = (0..count).fold(Table::new(), |table, _| table.variable(0, 1));
    with_true_constraint(table)
}

/// A table with this many slots: 16 are allowed.
pub fn slots(count: usize) -> Table {
    let table = (0..count).fold(Table::new(), |table, _| table.slot(0, 1));
    with_true_constraint(table)
}

/// A table with this many arrays: 64 are allowed.
pub fn arrays(count: usize) -> Table {
    let table = (0..count).fold(Table::new(), |table, _| table.constants(0, &[5]));
    with_true_constraint(table)
}

/// A table with an array of this many elements: 1 to 1,024 are allowed. The
/// constraint says that the last element is 1 and lies at the last index.
pub fn elements(count: usize) -> Table {
    let mut elements = vec![Element::Constant(0); count];
    if let Some(last) = elements.last_mut() {
        *last = Element::Constant(1);
    }
    Table::new()
        .array(Type::Integer, 1, &elements)
        .node(Node::constant(count as i32))
        .node(Node::lookup(0, 0))
        .node(Node::constant(1))
        .node(Node::equal(1, 2))
        .constraint(3)
}

/// A table with a slot of this many values: 10,000 are allowed. The constraint
/// says that a sum of ones over the slot is the number of values.
pub fn slot_values(count: i32) -> Table {
    Table::new()
        .slot(1, count)
        .node(Node::constant(1))
        .node(Node::sum(0, 0))
        .node(Node::constant(count))
        .node(Node::equal(1, 2))
        .constraint(3)
}

/// A table with this many records, 3 or more: 5,000 of them are allowed.
pub fn records(count: usize) -> Table {
    let nodes = (2..count).fold(Table::new(), |table, _| table.node(Node::truth(1)));
    nodes.constraint(0)
}

/// A table that says a constant equals itself: 2,000,000,000 is allowed.
pub fn constant(value: i32) -> Table {
    Table::new()
        .node(Node::constant(value))
        .node(Node::equal(0, 0))
        .constraint(1)
}

/// A chain of this many negations of true.
pub fn chain_of_nots(depth: usize) -> Table {
    let start = Table::new().node(Node::truth(1));
    let chain = (0..depth as i32).fold(start, |table, node| table.node(Node::not(node)));
    chain.constraint(depth as i32)
}

/// A chain of this many sums of 1 and what stands before, compared with 0.
pub fn chain_of_adds(depth: usize) -> Table {
    let start = Table::new().node(Node::constant(1));
    let chain = (0..depth as i32).fold(start, |table, node| table.node(Node::add(node, 0)));
    let last = depth as i32;
    chain.node(Node::at_most(0, last)).constraint(last + 1)
}

/// A chain of this many quantifiers over true, each over a range of one value.
pub fn chain_of_foralls(depth: usize) -> Table {
    let start = Table::new().slot(0, 0).node(Node::truth(1));
    let chain = (0..depth as i32).fold(start, |table, node| table.node(Node::forall(0, node)));
    chain.constraint(depth as i32)
}

/// A chain of this many quantifiers and conversions between the types: the
/// deepest walk that goes through every evaluator.
pub fn chain_of_types(depth: usize) -> Table {
    let mut table = Table::new().slot(0, 0).constants(0, &[0, 1]);
    let mut node = table.push(Node::constant(1));
    for _ in 0..depth / 5 {
        let looked_up = table.push(Node::lookup(0, node));
        let summed = table.push(Node::sum(0, looked_up));
        let compared = table.push(Node::equal(summed, 0));
        let quantified = table.push(Node::forall(0, compared));
        node = table.push(Node::bool_to_int(quantified));
    }
    let holds = table.push(Node::equal(node, 0));
    table.constraint(holds)
}

/// A chain of ands, each of which takes the one before twice. The cost
/// doubles with each: depth n costs 2^(n+1) − 1.
pub fn doubling(depth: usize) -> Table {
    let start = Table::new().node(Node::truth(1));
    let chain = (0..depth as i32).fold(start, |table, node| table.node(Node::and(node, node)));
    chain.constraint(depth as i32)
}

/// Quantifiers over ranges of these sizes around true, the first innermost.
pub fn nested(sizes: &[i32]) -> Table {
    let slots = sizes
        .iter()
        .fold(Table::new(), |table, &size| table.slot(1, size));
    let mut table = slots.node(Node::truth(1));
    let mut node = 0;
    for slot in 0..sizes.len() as i32 {
        node = table.push(Node::forall(slot, node));
    }
    table.constraint(node)
}

/// Tables on both sides of the limits, and the deepest and costliest ones.
pub fn both_sides() -> Vec<Table> {
    let mut tables = Vec::new();
    tables.extend([256, 257].map(variables));
    tables.extend([16, 17].map(slots));
    tables.extend([64, 65].map(arrays));
    tables.extend([0, 1, 1_024, 1_025].map(elements));
    tables.extend([10_000, 10_001].map(slot_values));
    tables.extend([2_501, 2_502, 5_000, 5_001].map(records));
    for value in [2_000_000_000, i32::MAX] {
        tables.extend([value, -value, value.wrapping_add(1), -value - 1].map(constant));
    }
    for depth in [0, 1, 4_900] {
        let chains = [
            chain_of_nots,
            chain_of_adds,
            chain_of_foralls,
            chain_of_types,
        ];
        tables.extend(chains.map(|chain| chain(depth)));
    }
    tables.extend([10, 20, 31, 32, 64, 4_900].map(doubling));
    let ranges: [&[i32]; 5] = [
        &[10_000],
        &[100, 0, 100],
        &[100, 100, 100],
        &[10_000; 16],
        &[10_000, 10_000, 10_000, 0],
    ];
    tables.extend(ranges.map(nested));
    tables
}
