//! P1 to P9: solutions, values and steps.

use super::Trial;
use crate::calls::{refused, Calls, CHOICES, KLEENE, RELATIONAL, STRICT};
use crate::{pretty, trials, Node, Table};

/// All trials of this file.
pub const TRIALS: &[Trial] = trials![
    p1_has_a_solution_unless_strict,
    p2_has_a_solution_unless_strict,
    p3_loses_zero_under_strict,
    p4_has_a_solution_only_under_relational,
    p4_verdicts,
    p5_to_p8_under_every_reading,
    p9_and_the_other_costs,
    p4_passes_budget_six_and_not_five,
    translation_of_p4,
    division_at_all_signs,
    the_identity_of_division,
    a_remainder_as_an_index,
    a_remainder_that_is_never_negative,
    other_operations,
];

/// The values of the only variable that solve a table.
fn values(calls: &dyn Calls, choice: u32, table: &Table) -> Vec<i32> {
    calls.solutions(choice, table).concat()
}

/// The steps of an evaluation.
fn steps(calls: &dyn Calls, table: &Table, assignment: &[i32]) -> u32 {
    let mut room = [0; 1];
    let answer = calls.evaluate(STRICT, &table.bytes(), assignment, u32::MAX, &mut room);
    assert_eq!(answer.number, 0);
    answer.steps
}

fn p1_has_a_solution_unless_strict(calls: &dyn Calls) {
    assert_eq!(values(calls, STRICT, &trials::p1()), []);
    assert_eq!(values(calls, KLEENE, &trials::p1()), [0]);
    assert_eq!(values(calls, RELATIONAL, &trials::p1()), [0]);
}

fn p2_has_a_solution_unless_strict(calls: &dyn Calls) {
    assert_eq!(values(calls, STRICT, &trials::p2()), []);
    assert_eq!(values(calls, KLEENE, &trials::p2()), [4]);
    assert_eq!(values(calls, RELATIONAL, &trials::p2()), [4]);
}

fn p3_loses_zero_under_strict(calls: &dyn Calls) {
    assert_eq!(values(calls, STRICT, &trials::p3()), [1, 2]);
    assert_eq!(values(calls, KLEENE, &trials::p3()), [0, 1, 2]);
    assert_eq!(values(calls, RELATIONAL, &trials::p3()), [0, 1, 2]);
}

fn p4_has_a_solution_only_under_relational(calls: &dyn Calls) {
    assert_eq!(values(calls, STRICT, &trials::p4()), []);
    assert_eq!(values(calls, KLEENE, &trials::p4()), []);
    assert_eq!(values(calls, RELATIONAL, &trials::p4()), [0]);
}

fn p4_verdicts(calls: &dyn Calls) {
    let table = trials::p4().bytes();
    let expected = [(STRICT, 2, 0), (KLEENE, 2, 0), (RELATIONAL, 1, 0)];
    for (choice, at_zero, at_one) in expected {
        assert_eq!(calls.verdicts(choice, &table, &[0]), Ok(vec![at_zero]));
        assert_eq!(calls.verdicts(choice, &table, &[1]), Ok(vec![at_one]));
    }
}

fn p5_to_p8_under_every_reading(calls: &dyn Calls) {
    for choice in CHOICES {
        assert_eq!(calls.verdict(choice, &trials::p5()), 1);
        assert_eq!(calls.verdict(choice, &trials::p6()), 0);
        assert_eq!(calls.verdict(choice, &trials::p7()), 1);
        assert_eq!(calls.verdict(choice, &trials::p8()), 1);
    }
}

fn p9_and_the_other_costs(calls: &dyn Calls) {
    assert_eq!(steps(calls, &trials::p9(), &[0]), 6);
    assert_eq!(steps(calls, &trials::p1(), &[0]), 9);
    assert_eq!(steps(calls, &trials::p2(), &[3]), 8);
    assert_eq!(steps(calls, &trials::p3(), &[0]), 7);
    // The bodies of P5 and P6 are taken no times.
    assert_eq!(steps(calls, &trials::p5(), &[]), 3);
    assert_eq!(steps(calls, &trials::p6(), &[]), 1);
    assert_eq!(steps(calls, &trials::p7(), &[]), 5);
    assert_eq!(steps(calls, &trials::p8(), &[]), 5);
}

fn p4_passes_budget_six_and_not_five(calls: &dyn Calls) {
    let table = trials::p4().bytes();
    for choice in CHOICES {
        let mut room = [9; 3];
        let answer = calls.evaluate(choice, &table, &[1], 6, &mut room);
        assert_eq!((answer.number, answer.steps, answer.length), (0, 6, 1));
        assert_eq!(room, [0, 9, 9]);
        let mut room = [9; 3];
        let answer = calls.evaluate(choice, &table, &[1], 5, &mut room);
        assert_eq!(answer, refused(11, 0));
        assert_eq!(room, [9, 9, 9]);
    }
}

fn translation_of_p4(calls: &dyn Calls) {
    let out = calls.translated(RELATIONAL, &trials::p4().bytes());
    let text = out.map(|out| pretty(&out));
    assert_eq!(text.as_deref(), Ok(trials::P4_RELATIONAL));
}

/// Dividend, divisor, quotient cut toward zero, remainder with the dividend's sign.
const DIVISIONS: [(i32, i32, i32, i32); 41] = [
    (7, 2, 3, 1),
    (7, -2, -3, 1),
    (-7, 2, -3, -1),
    (-7, -2, 3, -1),
    (6, 3, 2, 0),
    (-6, 3, -2, 0),
    (6, -3, -2, 0),
    (-6, -3, 2, 0),
    (0, 5, 0, 0),
    (0, -5, 0, 0),
    (1, 3, 0, 1),
    (-1, 3, 0, -1),
    (-1, -3, 0, -1),
    (1, -3, 0, 1),
    (-8, 5, -1, -3),
    (-8, -5, 1, -3),
    (0, 1, 0, 0),
    (0, -1, 0, 0),
    (1, 1, 1, 0),
    (1, -1, -1, 0),
    (-1, 1, -1, 0),
    (-1, -1, 1, 0),
    (2_000_000_000, 1, 2_000_000_000, 0),
    (2_000_000_000, -1, -2_000_000_000, 0),
    (-2_000_000_000, 1, -2_000_000_000, 0),
    (-2_000_000_000, -1, 2_000_000_000, 0),
    (2_000_000_000, 2_000_000_000, 1, 0),
    (2_000_000_000, -2_000_000_000, -1, 0),
    (-2_000_000_000, 2_000_000_000, -1, 0),
    (-2_000_000_000, -2_000_000_000, 1, 0),
    (2_000_000_000, -1_999_999_999, -1, 1),
    (-2_000_000_000, 1_999_999_999, -1, -1),
    (0, 2_000_000_000, 0, 0),
    (0, -2_000_000_000, 0, 0),
    (1, -2_000_000_000, 0, 1),
    (-1, 2_000_000_000, 0, -1),
    (-1, -2_000_000_000, 0, -1),
    (1_999_999_999, 2_000_000_000, 0, 1_999_999_999),
    (1_999_999_999, -2_000_000_000, 0, 1_999_999_999),
    (-1_999_999_999, 2_000_000_000, 0, -1_999_999_999),
    (-1_999_999_999, -2_000_000_000, 0, -1_999_999_999),
];

fn division_at_all_signs(calls: &dyn Calls) {
    for (a, b, quotient, remainder) in DIVISIONS {
        for choice in CHOICES {
            assert_eq!(
                calls.verdict(choice, &operation(Node::div(0, 1), a, b, quotient)),
                1
            );
            assert_eq!(
                calls.verdict(choice, &operation(Node::modulo(0, 1), a, b, remainder)),
                1
            );
        }
    }
}

/// a = b · (a div b) + (a mod b), for every b but 0.
fn the_identity_of_division(calls: &dyn Calls) {
    let table = Table::new()
        .variable(-9, 9)
        .variable(-4, 4)
        .node(Node::variable(0))
        .node(Node::variable(1))
        .node(Node::div(0, 1))
        .node(Node::multiply(1, 2))
        .node(Node::modulo(0, 1))
        .node(Node::add(3, 4))
        .node(Node::equal(0, 5))
        .constraint(6);
    for choice in CHOICES {
        let solutions = calls.solutions(choice, &table);
        assert_eq!(solutions.len(), 19 * 8);
        assert!(solutions.iter().all(|values| values[1] != 0));
    }
}

/// A negative number's remainder is outside an array that begins at 0, unless it is 0.
fn a_remainder_as_an_index(calls: &dyn Calls) {
    let table = Table::new()
        .variable(-5, 5)
        .constants(0, &[5, 6, 7, 8])
        .node(Node::variable(0))
        .node(Node::constant(4))
        .node(Node::modulo(0, 1))
        .node(Node::lookup(0, 2))
        .node(Node::constant(5))
        .node(Node::equal(3, 4))
        .node(Node::not(5));
    let is_five = table.clone().constraint(5);
    let is_not = table.constraint(6);
    for choice in CHOICES {
        assert_eq!(values(calls, choice, &is_five), [-4, 0, 4]);
    }
    assert_eq!(values(calls, STRICT, &is_not), [1, 2, 3, 5]);
    assert_eq!(values(calls, KLEENE, &is_not), [1, 2, 3, 5]);
    let outside_too = [-5, -3, -2, -1, 1, 2, 3, 5];
    assert_eq!(values(calls, RELATIONAL, &is_not), outside_too);
}

/// ((x mod 4) + 4) mod 4 is the remainder that is never negative.
fn a_remainder_that_is_never_negative(calls: &dyn Calls) {
    let table = Table::new()
        .variable(-9, 9)
        .variable(-9, 9)
        .node(Node::variable(0))
        .node(Node::constant(4))
        .node(Node::modulo(0, 1))
        .node(Node::add(2, 1))
        .node(Node::modulo(3, 1))
        .node(Node::variable(1))
        .node(Node::equal(4, 5))
        .constraint(6);
    let expected: Vec<Vec<i32>> = (-9..=9).map(|x: i32| vec![x, x.rem_euclid(4)]).collect();
    for choice in CHOICES {
        assert_eq!(calls.solutions(choice, &table), expected);
    }
}

/// A table that says a op b = result.
fn operation(node: Node, a: i32, b: i32, result: i32) -> Table {
    Table::new()
        .node(Node::constant(a))
        .node(Node::constant(b))
        .node(node)
        .node(Node::constant(result))
        .node(Node::equal(2, 3))
        .constraint(4)
}

fn other_operations(calls: &dyn Calls) {
    let expected = [
        (Node::add(0, 1), -3),
        (Node::subtract(0, 1), 7),
        (Node::multiply(0, 1), -10),
        (Node::min(0, 1), -5),
        (Node::max(0, 1), 2),
        (Node::negate(0), -2),
        (Node::negate(1), 5),
    ];
    for (node, result) in expected {
        for choice in CHOICES {
            assert_eq!(calls.verdict(choice, &operation(node, 2, -5, result)), 1);
            assert_eq!(
                calls.verdict(choice, &operation(node, 2, -5, result + 1)),
                0
            );
        }
    }
}
