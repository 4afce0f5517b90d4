//! What a table is worth, asked of the proved library.

use barfigol::{evaluate, translate, Reading, Verdict};
use barfigol_format::limits::VALUE_LIMIT;
use barfigol_format::{Node, Table, Type};

/// Enough for every table that is drawn.
const BUDGET: u32 = 1_000_000;

/// What a node is worth for an assignment.
#[derive(Clone, Copy, Debug, PartialEq, Eq)]
pub enum Worth {
    /// A number.
    Number(i64),
    /// A truth value.
    Truth(bool),
    /// Nothing.
    Undefined,
}

/// The verdicts on a table's constraints for an assignment.
pub fn verdicts(reading: Reading, table: &Table, values: &[i32]) -> Vec<Verdict> {
    let found = evaluate(reading, &table.bytes(), values, BUDGET).expect("an example is evaluated");
    found.verdicts
}

/// The steps that a table's constraints take.
pub fn steps(table: &Table) -> u32 {
    let values: Vec<i32> = table.variables.iter().map(|of| of.low).collect();
    let found = evaluate(Reading::Kleene, &table.bytes(), &values, BUDGET);
    found.expect("an example is evaluated").steps
}

/// The assignments that are solutions.
pub fn solutions(reading: Reading, table: &Table) -> Vec<Vec<i32>> {
    let solves = |values: &Vec<i32>| {
        let verdicts = verdicts(reading, table, values);
        verdicts.iter().all(|&verdict| verdict == Verdict::True)
    };
    table.assignments().filter(solves).collect()
}

/// A table's translation.
pub fn translated(reading: Reading, table: &Table) -> Table {
    Table::read(&translate(reading, &table.bytes()).expect("an example is translated"))
}

/// The verdict on a node that is added to a table as its only constraint.
fn verdict_on(reading: Reading, table: &Table, values: &[i32], node: Node) -> Verdict {
    let mut table = table.clone();
    let added = table.push(node);
    table.constraints = vec![added];
    verdicts(reading, &table, values)[0]
}

/// What a node of a table is worth for an assignment.
pub fn worth(reading: Reading, table: &Table, values: &[i32], node: i32) -> Worth {
    match table.nodes[node as usize].yields() {
        // The same as the node alone, in every reading.
        Type::Bool => match verdict_on(reading, table, values, Node::and(node, node)) {
            Verdict::True => Worth::Truth(true),
            Verdict::False => Worth::Truth(false),
            Verdict::Undefined => Worth::Undefined,
        },
        Type::Integer => number(reading, table, values, node),
    }
}

/// What an integer node is worth: it equals itself where it is defined, and
/// comparisons then close in on it.
fn number(reading: Reading, table: &Table, values: &[i32], node: i32) -> Worth {
    if verdict_on(reading, table, values, Node::equal(node, node)) != Verdict::True {
        return Worth::Undefined;
    }
    let (mut low, mut high) = (-VALUE_LIMIT, VALUE_LIMIT);
    while low < high {
        let middle = (low + high).div_euclid(2);
        let mut table = table.clone();
        let bound = table.push(Node::constant(middle as i32));
        match verdict_on(reading, &table, values, Node::at_most(node, bound)) {
            Verdict::True => high = middle,
            _ => low = middle + 1,
        }
    }
    Worth::Number(low)
}
