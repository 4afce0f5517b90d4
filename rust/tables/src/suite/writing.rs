//! The records that a translation writes, kind by kind and in their order.

use super::Trial;
use crate::calls::{Calls, CHOICES, KLEENE, RELATIONAL, STRICT};
use crate::{rows_of, Element, Node, Table, Type};

/// All trials of this file.
pub const TRIALS: &[Trial] = trials![
    leaves,
    arithmetic,
    divisions,
    negate_has_its_operand_defined,
    conversions_and_sums,
    integer_lookup,
    bool_lookup,
    comparisons,
    connectives,
    iff,
    quantifiers,
    not_swaps_and_constraints_take_what_is_true,
    operands_are_taken_in_their_order,
    a_table_without_nodes_is_copied,
];

/// The nodes and constraints that a translation writes, as `kind x y`.
fn written(calls: &dyn Calls, choice: u32, table: &Table) -> Vec<String> {
    let out = calls
        .translated(choice, &table.bytes())
        .expect("a table within bounds");
    let rows = rows_of(&out);
    let copied = table.first_node_record();
    assert_eq!(rows[0].x as usize, rows.len());
    assert_eq!(rows[1..copied], table.rows()[1..copied]);
    rows[copied..]
        .iter()
        .map(|row| match &row.mark {
            b"ND" => format!("{} {} {}", row.kind, row.x, row.y),
            mark => format!("{} {}", String::from_utf8_lossy(mark), row.x),
        })
        .collect()
}

/// Two integer variables, nodes 0 and 1, with a slot and an array of each type
/// whose indices are −1 to 1. Their companions are V 0, D 1 and V 2, D 3.
fn integers() -> Table {
    let bools = [
        Element::Constant(1),
        Element::Variable(2),
        Element::Constant(0),
    ];
    Table::new()
        .variable(-2, 2)
        .variable(-2, 2)
        .bool_variable()
        .slot(1, 3)
        .constants(-1, &[4, 5, 6])
        .array(Type::Bool, -1, &bools)
        .node(Node::variable(0))
        .node(Node::variable(1))
}

/// Two bool variables, nodes 0 and 1, with a slot. Their companions are P 0,
/// N 1 and P 2, N 3.
fn bools() -> Table {
    Table::new()
        .bool_variable()
        .bool_variable()
        .slot(1, 3)
        .node(Node::bool_variable(0))
        .node(Node::bool_variable(1))
}

const INTEGER_LEAVES: &str = "3 0 0, 2 1 0, 3 1 0, 2 1 0";
const BOOL_LEAVES: &str = "4 0 0, 24 0 0, 4 1 0, 24 2 0";

/// Says what is written for one node after the two leaves.
fn assert_written(calls: &dyn Calls, choice: u32, table: Table, node: Node, expected: &str) {
    let leaves = match table.nodes[0].yields() {
        Type::Integer => INTEGER_LEAVES,
        Type::Bool => BOOL_LEAVES,
    };
    let all = format!("{leaves}, {expected}");
    let expected: Vec<&str> = all.split(", ").collect();
    let found = written(calls, choice, &table.node(node));
    assert_eq!(found, expected, "kind {} under {choice}", node.kind);
}

fn leaves(calls: &dyn Calls) {
    let table = Table::new()
        .variable(0, 1)
        .bool_variable()
        .slot(0, 1)
        .node(Node::constant(-7))
        .node(Node::truth(0))
        .node(Node::truth(1))
        .node(Node::variable(0))
        .node(Node::bool_variable(1))
        .node(Node::slot(0));
    let expected = [
        "1 -7 0", "2 1 0", "2 0 0", "24 2 0", "2 1 0", "24 4 0", "3 0 0", "2 1 0", "4 1 0",
        "24 8 0", "5 0 0", "2 1 0",
    ];
    for choice in CHOICES {
        assert_eq!(written(calls, choice, &table), expected);
    }
}

fn arithmetic(calls: &dyn Calls) {
    let operations: [fn(i32, i32) -> Node; 5] = [
        Node::add,
        Node::subtract,
        Node::multiply,
        Node::min,
        Node::max,
    ];
    for choice in CHOICES {
        for operation in operations {
            let node = operation(0, 1);
            let expected = format!("{} 0 2, 20 1 3", node.kind);
            assert_written(calls, choice, integers(), node, &expected);
        }
    }
}

fn divisions(calls: &dyn Calls) {
    for choice in CHOICES {
        for node in [Node::div(0, 1), Node::modulo(0, 1)] {
            let value = format!("1 0 0, 25 2 4, 14 5 0, 6 2 6, {} 0 7", node.kind);
            let defined = "20 1 3, 1 0 0, 26 2 10, 20 9 11";
            let expected = format!("{value}, {defined}");
            assert_written(calls, choice, integers(), node, &expected);
        }
    }
}

fn negate_has_its_operand_defined(calls: &dyn Calls) {
    for choice in CHOICES {
        assert_written(calls, choice, integers(), Node::negate(1), "11 2 0");
        // The definedness of node 2 is that of node 1, which is record 3.
        let table = integers().node(Node::negate(1));
        let found = written(calls, choice, &table.node(Node::add(0, 2)));
        assert_eq!(found[4..], ["11 2 0", "6 0 4", "20 1 3"]);
    }
}

fn conversions_and_sums(calls: &dyn Calls) {
    for choice in CHOICES {
        assert_written(
            calls,
            choice,
            bools(),
            Node::bool_to_int(1),
            "14 2 0, 21 2 3",
        );
        assert_written(calls, choice, integers(), Node::sum(0, 1), "17 0 2, 30 0 3");
    }
}

fn integer_lookup(calls: &dyn Calls) {
    let value = "1 -1 0, 1 1 0, 12 5 2, 13 4 6, 15 0 7";
    let defined = "1 -1 0, 27 9 2, 20 3 10, 1 1 0, 27 2 12, 20 11 13";
    let expected = format!("{value}, {defined}");
    for choice in CHOICES {
        assert_written(calls, choice, integers(), Node::lookup(0, 1), &expected);
    }
}

fn bool_lookup(calls: &dyn Calls) {
    let inside = "1 -1 0, 27 4 0, 20 1 5, 1 1 0, 27 0 7, 20 6 8";
    let element = "1 -1 0, 1 1 0, 12 11 0, 13 10 12, 16 1 13";
    let is_true = format!("{inside}, {element}, 20 9 14");
    let inside = "1 -1 0, 27 16 0, 20 1 17, 1 1 0, 27 0 19, 20 18 20";
    let element = "1 -1 0, 1 1 0, 12 23 0, 13 22 24, 16 1 25";
    let is_false = format!("{inside}, {element}, 24 26 0, 20 21 27");
    let node = Node::bool_lookup(1, 0);
    for choice in [STRICT, KLEENE] {
        let expected = format!("{is_true}, {is_false}");
        assert_written(calls, choice, integers(), node, &expected);
    }
    let expected = format!("{is_true}, 24 15 0");
    assert_written(calls, RELATIONAL, integers(), node, &expected);
}

fn comparisons(calls: &dyn Calls) {
    let comparisons: [fn(i32, i32) -> Node; 4] =
        [Node::equal, Node::unequal, Node::at_most, Node::below];
    for comparison in comparisons {
        let node = comparison(0, 1);
        let kind = node.kind;
        let is_true = format!("20 1 3, {kind} 0 2, 20 4 5");
        let is_false = format!("20 1 3, {kind} 0 2, 24 8 0, 20 7 9");
        for choice in [STRICT, KLEENE] {
            let expected = format!("{is_true}, {is_false}");
            assert_written(calls, choice, integers(), node, &expected);
        }
        let expected = format!("{is_true}, 24 6 0");
        assert_written(calls, RELATIONAL, integers(), node, &expected);
    }
}

fn connectives(calls: &dyn Calls) {
    for choice in [KLEENE, RELATIONAL] {
        assert_written(calls, choice, bools(), Node::and(0, 1), "20 0 2, 21 1 3");
        assert_written(calls, choice, bools(), Node::or(0, 1), "21 0 2, 20 1 3");
        assert_written(
            calls,
            choice,
            bools(),
            Node::implies(0, 1),
            "21 1 2, 20 0 3",
        );
    }
    let and = "20 0 2, 21 0 1, 21 2 3, 20 5 6, 21 1 3, 20 7 8";
    let or = "21 0 1, 21 2 3, 20 4 5, 21 0 2, 20 6 7, 20 1 3";
    let implies = "21 0 1, 21 2 3, 20 4 5, 21 1 2, 20 6 7, 20 0 3";
    assert_written(calls, STRICT, bools(), Node::and(0, 1), and);
    assert_written(calls, STRICT, bools(), Node::or(0, 1), or);
    assert_written(calls, STRICT, bools(), Node::implies(0, 1), implies);
}

fn iff(calls: &dyn Calls) {
    let expected = "20 0 2, 20 1 3, 21 4 5, 20 0 3, 20 1 2, 21 7 8";
    for choice in CHOICES {
        assert_written(calls, choice, bools(), Node::iff(0, 1), expected);
    }
}

fn quantifiers(calls: &dyn Calls) {
    for choice in [KLEENE, RELATIONAL] {
        assert_written(calls, choice, bools(), Node::exists(0, 1), "29 0 2, 30 0 3");
        assert_written(calls, choice, bools(), Node::forall(0, 1), "30 0 2, 29 0 3");
    }
    let exists = "21 2 3, 30 0 4, 29 0 2, 20 5 6, 30 0 3";
    let forall = "30 0 2, 21 2 3, 30 0 5, 29 0 3, 20 6 7";
    assert_written(calls, STRICT, bools(), Node::exists(0, 1), exists);
    assert_written(calls, STRICT, bools(), Node::forall(0, 1), forall);
}

fn not_swaps_and_constraints_take_what_is_true(calls: &dyn Calls) {
    let table = bools()
        .node(Node::not(0))
        .node(Node::not(2))
        .constraint(2)
        .constraint(3)
        .constraint(1)
        .constraint(2);
    for choice in CHOICES {
        let found = written(calls, choice, &table);
        assert_eq!(found[4..], ["CN 1", "CN 0", "CN 2", "CN 1"]);
    }
}

fn operands_are_taken_in_their_order(calls: &dyn Calls) {
    // The same two nodes the other way round.
    let strict = "21 2 3, 21 0 1, 20 4 5, 21 3 0, 20 6 7, 20 2 1";
    assert_written(calls, STRICT, bools(), Node::implies(1, 0), strict);
    assert_written(
        calls,
        KLEENE,
        integers(),
        Node::subtract(1, 0),
        "7 2 0, 20 3 1",
    );
}

fn a_table_without_nodes_is_copied(calls: &dyn Calls) {
    let table = Table {
        nodes: Vec::new(),
        ..integers()
    };
    for choice in CHOICES {
        assert_eq!(calls.translated(choice, &table.bytes()), Ok(table.bytes()));
    }
}
