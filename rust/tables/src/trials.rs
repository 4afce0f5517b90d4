//! The worked examples P1 to P9, and a table with every kind. P9 is the cost of
//! P4's constraint.

use barfigol_format::{Element, Node, Table, Type};

/// P1 to P8.
pub const ALL: [fn() -> Table; 8] = [p1, p2, p3, p4, p5, p6, p7, p8];

/// y in 0..1, 1/y = 2 ∨ y < 1.
pub fn p1() -> Table {
    Table::new()
        .variable(0, 1)
        .node(Node::constant(1))
        .node(Node::variable(0))
        .node(Node::div(0, 1))
        .node(Node::constant(2))
        .node(Node::equal(2, 3))
        .node(Node::below(1, 0))
        .node(Node::or(4, 5))
        .constraint(6)
}

/// y in 3..4, `a = [1, 4, 9]` from index 1, `a[y]` = 1 ∨ y > 3.
pub fn p2() -> Table {
    Table::new()
        .variable(3, 4)
        .constants(1, &[1, 4, 9])
        .node(Node::variable(0))
        .node(Node::lookup(0, 0))
        .node(Node::constant(1))
        .node(Node::equal(1, 2))
        .node(Node::constant(3))
        .node(Node::below(4, 0))
        .node(Node::or(3, 5))
        .constraint(6)
}

/// y in 0..2, true ∨ 1/y = 1.
pub fn p3() -> Table {
    Table::new()
        .variable(0, 2)
        .node(Node::truth(1))
        .node(Node::constant(1))
        .node(Node::variable(0))
        .node(Node::div(1, 2))
        .node(Node::equal(3, 1))
        .node(Node::or(0, 4))
        .constraint(5)
}

/// y in 0..1, ¬(1/y = 1).
pub fn p4() -> Table {
    Table::new()
        .variable(0, 1)
        .node(Node::constant(1))
        .node(Node::variable(0))
        .node(Node::div(0, 1))
        .node(Node::equal(2, 0))
        .node(Node::not(3))
        .constraint(4)
}

/// The sum over 1..−1 of x/0 equals 0.
pub fn p5() -> Table {
    Table::new()
        .slot(1, -1)
        .node(Node::slot(0))
        .node(Node::constant(0))
        .node(Node::div(0, 1))
        .node(Node::sum(0, 2))
        .node(Node::equal(3, 1))
        .constraint(4)
}

/// Exists over 1..−1 of 1/0 = 7.
pub fn p6() -> Table {
    Table::new()
        .slot(1, -1)
        .node(Node::constant(1))
        .node(Node::constant(0))
        .node(Node::div(0, 1))
        .node(Node::constant(7))
        .node(Node::equal(2, 3))
        .node(Node::exists(0, 4))
        .constraint(5)
}

/// −7 div 2 equals −3.
pub fn p7() -> Table {
    Table::new()
        .node(Node::constant(-7))
        .node(Node::constant(2))
        .node(Node::div(0, 1))
        .node(Node::constant(-3))
        .node(Node::equal(2, 3))
        .constraint(4)
}

/// −7 mod 2 equals −1.
pub fn p8() -> Table {
    Table::new()
        .node(Node::constant(-7))
        .node(Node::constant(2))
        .node(Node::modulo(0, 1))
        .node(Node::constant(-1))
        .node(Node::equal(2, 3))
        .constraint(4)
}

/// P4's table. P9 says that its constraint costs 6 steps.
pub fn p9() -> Table {
    p4()
}

/// P4 translated under the relational reading, a record to a line.
pub const P4_RELATIONAL: &str = "\
HD 1 0 20 0
VR 1 0 0 1
ND 1 0 1 0
ND 2 0 1 0
ND 3 0 0 0
ND 2 0 1 0
ND 1 0 0 0
ND 25 0 2 4
ND 14 0 5 0
ND 6 0 2 6
ND 9 0 0 7
ND 20 0 1 3
ND 1 0 0 0
ND 26 0 2 10
ND 20 0 9 11
ND 20 0 12 1
ND 25 0 8 0
ND 20 0 13 14
ND 24 0 15 0
CN 0 0 16 0
";

/// A table with every mark and every kind of node, all of them reached from
/// its constraints.
pub fn every_kind() -> Table {
    let integers = [Element::Constant(-2), Element::Variable(0)];
    let bools = [Element::Constant(1), Element::Variable(1)];
    let mut table = Table::new()
        .variable(-1, 2)
        .bool_variable()
        .slot(-1, 1)
        .slot(1, 2)
        .array(Type::Integer, 0, &integers)
        .array(Type::Bool, -1, &bools);
    let last = push_integers(&mut table);
    let holds = push_truths(&mut table, last);
    table.constraint(holds).constraint(holds - 1)
}

/// Every integer kind, each node an operand of the next.
fn push_integers(table: &mut Table) -> i32 {
    let constant = table.push(Node::constant(3));
    let variable = table.push(Node::variable(0));
    let slot = table.push(Node::slot(0));
    let truth = table.push(Node::bool_variable(1));
    let number = table.push(Node::bool_to_int(truth));
    let added = table.push(Node::add(number, variable));
    let less = table.push(Node::subtract(added, slot));
    let times = table.push(Node::multiply(less, constant));
    let quotient = table.push(Node::div(times, variable));
    let remainder = table.push(Node::modulo(quotient, slot));
    let negated = table.push(Node::negate(remainder));
    let least = table.push(Node::min(negated, constant));
    let most = table.push(Node::max(least, variable));
    let element = table.push(Node::lookup(0, most));
    table.push(Node::sum(0, element))
}

/// Every Boolean kind over an integer node.
fn push_truths(table: &mut Table, value: i32) -> i32 {
    let no = table.push(Node::truth(0));
    let slot = table.push(Node::slot(1));
    let element = table.push(Node::bool_lookup(1, slot));
    let equal = table.push(Node::equal(value, slot));
    let unequal = table.push(Node::unequal(slot, value));
    let at_most = table.push(Node::at_most(value, slot));
    let below = table.push(Node::below(slot, value));
    let either = table.push(Node::or(element, equal));
    let both = table.push(Node::and(unequal, at_most));
    let implied = table.push(Node::implies(either, both));
    let same = table.push(Node::iff(implied, below));
    let negated = table.push(Node::not(same));
    let some = table.push(Node::exists(1, negated));
    let open = table.push(Node::or(no, negated));
    let every = table.push(Node::forall(1, open));
    table.push(Node::iff(some, every))
}
