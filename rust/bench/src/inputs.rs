//! The cases that are timed.

use barfigol_format::kinds::Field;
use barfigol_format::limits::{MOST_BYTES, MOST_RECORDS, MOST_SLOTS};
use barfigol_format::{Element, Node, Table, Type};
use barfigol_tables::calls::{Calls, CHOICES, KLEENE};
use barfigol_tables::cases::{Call, Case};
use barfigol_tables::{limits, trials};

/// The deepest chains that are timed.
const DEPTH: usize = 4_900;

/// A case and what it is called in the tables of figures.
pub struct Input {
    /// The name.
    pub name: String,
    /// The call.
    pub case: Case,
}

/// All cases. The calls tell which translations fit, and the figures in the
/// names.
pub fn all(calls: &dyn Calls) -> Vec<Input> {
    let mixed = input("mixed kinds, 16 slots", &mixed(), Call::Check, calls);
    let mut inputs = vec![mixed];
    for (name, block) in [("div and lookup", divisions()), ("logic", logic())] {
        for choice in CHOICES {
            let table = longest_translated(&block, choice, calls);
            let room = MOST_BYTES;
            let call = Call::Translate { choice, room };
            inputs.push(input(name, &table, call, calls));
        }
    }
    let walks = [
        ("nested ranges", nested()),
        ("quotients below zero", quotients()),
        ("wide and flat", flat()),
        ("chain of nots", limits::chain_of_nots(DEPTH)),
        ("chain of adds", limits::chain_of_adds(DEPTH)),
        ("chain of foralls", limits::chain_of_foralls(DEPTH)),
        ("chain through both types", limits::chain_of_types(DEPTH)),
    ];
    for (name, table) in walks {
        let call = Call::Evaluate {
            choice: KLEENE,
            assignment: table.variables.iter().map(|of| of.high).collect(),
            budget: u32::MAX,
            room: table.constraints.len(),
        };
        inputs.push(input(name, &table, call, calls));
    }
    inputs
}

fn input(name: &str, table: &Table, call: Call, calls: &dyn Calls) -> Input {
    let table = table.bytes();
    let case = Case { table, call };
    let bytes = case.table.len();
    let name = match (&case.call, case.run(calls, 0).answer) {
        (Call::Check, _) => format!("{name}, {bytes} bytes"),
        (Call::Translate { .. }, answer) => {
            format!("{name}, {bytes} bytes into {}", answer.length)
        }
        (Call::Evaluate { .. }, answer) => {
            format!("{name}, {bytes} bytes, {} steps", answer.steps)
        }
    };
    Input { name, case }
}

/// A table whose nodes and constraints are copies of a block's, each copy over
/// the next slots.
fn blocks(block: &Table, count: usize) -> Table {
    let mut table = Table {
        nodes: Vec::new(),
        constraints: Vec::new(),
        ..block.clone()
    };
    for copy in 0..count as i32 {
        let shift = table.nodes.len() as i32;
        let turn = block.slots.len() as i32;
        let moved = |field: Field, number: i32| match field {
            Field::Node(_) => number + shift,
            Field::Slot => (number + copy) % turn,
            _ => number,
        };
        for node in &block.nodes {
            let (x, y) = node.fields();
            table.nodes.push(Node {
                kind: node.kind,
                x: moved(x, node.x),
                y: moved(y, node.y),
            });
        }
        let constraints = block.constraints.iter().map(|node| node + shift);
        table.constraints.extend(constraints);
    }
    table
}

/// Every kind in turn, over 16 slots, filled up with constraints to the longest
/// table.
fn mixed() -> Table {
    let mut block = trials::every_kind();
    while block.slots.len() < MOST_SLOTS {
        block = block.slot(1, 2);
    }
    let each = block.nodes.len() + block.constraints.len();
    let count = (MOST_RECORDS - block.first_node_record()) / each;
    let mut table = blocks(&block, count);
    let first = table.constraints[0];
    while table.records() < MOST_RECORDS {
        table = table.constraint(first);
    }
    table
}

/// As many blocks as can be translated.
fn longest_translated(block: &Table, choice: u32, calls: &dyn Calls) -> Table {
    let fits = |count: usize| {
        calls
            .translated(choice, &blocks(block, count).bytes())
            .is_ok()
    };
    let mut count = 1;
    while fits(count + 1) {
        count += 1;
    }
    blocks(block, count)
}

/// Quotients, remainders and lookups.
fn divisions() -> Table {
    let integers = [
        Element::Constant(4),
        Element::Variable(0),
        Element::Constant(9),
    ];
    let bools = [Element::Constant(1), Element::Constant(0)];
    Table::new()
        .variable(-3, 3)
        .variable(0, 2)
        .array(Type::Integer, 1, &integers)
        .array(Type::Bool, 0, &bools)
        .node(Node::variable(0))
        .node(Node::variable(1))
        .node(Node::div(0, 1))
        .node(Node::modulo(0, 1))
        .node(Node::lookup(0, 2))
        .node(Node::add(4, 3))
        .node(Node::bool_lookup(1, 3))
        .node(Node::div(5, 3))
        .node(Node::lookup(0, 7))
        .node(Node::below(8, 5))
        .node(Node::or(6, 9))
        .constraint(10)
}

/// Connectives, comparisons and quantifiers.
fn logic() -> Table {
    let table = Table::new().variable(-3, 3).bool_variable().slot(0, 3);
    table
        .node(Node::variable(0))
        .node(Node::slot(0))
        .node(Node::equal(0, 1))
        .node(Node::below(1, 0))
        .node(Node::bool_variable(1))
        .node(Node::and(2, 4))
        .node(Node::or(3, 5))
        .node(Node::not(6))
        .node(Node::implies(7, 2))
        .node(Node::iff(8, 4))
        .node(Node::exists(0, 9))
        .node(Node::forall(0, 8))
        .node(Node::and(10, 11))
        .constraint(12)
}

/// Three ranges around a body of arithmetic: about ten million steps.
fn nested() -> Table {
    Table::new()
        .variable(0, 7)
        .slot(1, 100)
        .slot(1, 100)
        .slot(1, 100)
        .node(Node::slot(0))
        .node(Node::slot(1))
        .node(Node::slot(2))
        .node(Node::variable(0))
        .node(Node::multiply(0, 1))
        .node(Node::subtract(2, 3))
        .node(Node::div(4, 5))
        .node(Node::max(6, 2))
        .node(Node::at_most(3, 7))
        .node(Node::forall(2, 8))
        .node(Node::exists(1, 9))
        .node(Node::forall(0, 10))
        .constraint(11)
}

/// Sums of quotients whose dividends are below zero.
fn quotients() -> Table {
    Table::new()
        .slot(-1_000, -1)
        .slot(1, 64)
        .node(Node::slot(0))
        .node(Node::slot(1))
        .node(Node::div(0, 1))
        .node(Node::sum(1, 2))
        .node(Node::sum(0, 3))
        .node(Node::constant(0))
        .node(Node::at_most(4, 5))
        .constraint(6)
}

/// Many small constraints without ranges.
fn flat() -> Table {
    let block = Table::new()
        .variable(-3, 3)
        .variable(0, 9)
        .node(Node::variable(0))
        .node(Node::variable(1))
        .node(Node::add(0, 1))
        .node(Node::div(2, 0))
        .node(Node::below(3, 1))
        .node(Node::equal(2, 1))
        .node(Node::or(4, 5))
        .constraint(6);
    let each = block.nodes.len() + block.constraints.len();
    blocks(&block, (MOST_RECORDS - block.first_node_record()) / each)
}
