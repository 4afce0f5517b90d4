//! Every connective, comparison, lookup, conversion and quantifier over true,
//! false and undefined, against tables written down from the three semantics.

use super::Trial;
use crate::calls::{Calls, CHOICES, RELATIONAL};
use crate::{Element, Node, Table, Type};

/// All trials of this file.
pub const TRIALS: &[Trial] = trials![
    connectives,
    not_of_each_value,
    bool_to_int_of_each_value,
    comparisons,
    bool_lookups,
    integer_lookups,
    integer_operations_with_an_undefined_operand,
    division_by_zero_is_undefined,
    quantifiers,
    sums,
    the_innermost_binding_wins,
    the_outer_setting_comes_back,
    two_slots_do_not_mix,
    a_shared_node_takes_each_binding,
];

/// The verdict byte of a letter: T, F, or U for undefined.
fn byte(letter: char) -> u8 {
    match letter {
        'F' => 0,
        'T' => 1,
        'U' => 2,
        _ => panic!("no value is called {letter}"),
    }
}

/// Adds a Boolean node with a value. The undefined one is 1 div 0 = 1, which
/// the relational reading takes for false.
fn push_truth(table: &mut Table, letter: char) -> i32 {
    if letter != 'U' {
        return table.push(Node::truth(i32::from(byte(letter))));
    }
    let one = table.push(Node::constant(1));
    let undefined = push_integer(table, None);
    table.push(Node::equal(undefined, one))
}

/// Adds an integer node with a value, 1 div 0 for none.
fn push_integer(table: &mut Table, value: Option<i32>) -> i32 {
    if let Some(value) = value {
        return table.push(Node::constant(value));
    }
    let one = table.push(Node::constant(1));
    let zero = table.push(Node::constant(0));
    table.push(Node::div(one, zero))
}

/// A connective and its tables under the three readings. Rows go by the left
/// operand and columns by the right one, both in the order T, F, U.
struct Connective {
    node: fn(i32, i32) -> Node,
    strict: [&'static str; 3],
    kleene: [&'static str; 3],
    relational: [&'static str; 3],
}

const CONNECTIVES: [Connective; 4] = [
    Connective {
        node: Node::and,
        strict: ["TFU", "FFU", "UUU"],
        kleene: ["TFU", "FFF", "UFU"],
        relational: ["TFF", "FFF", "FFF"],
    },
    Connective {
        node: Node::or,
        strict: ["TTU", "TFU", "UUU"],
        kleene: ["TTT", "TFU", "TUU"],
        relational: ["TTT", "TFF", "TFF"],
    },
    Connective {
        node: Node::implies,
        strict: ["TFU", "TTU", "UUU"],
        kleene: ["TFU", "TTT", "TUU"],
        relational: ["TFF", "TTT", "TTT"],
    },
    Connective {
        node: Node::iff,
        strict: ["TFU", "FTU", "UUU"],
        kleene: ["TFU", "FTU", "UUU"],
        relational: ["TFF", "FTT", "FTT"],
    },
];

fn connectives(calls: &dyn Calls) {
    for connective in &CONNECTIVES {
        let tables = [connective.strict, connective.kleene, connective.relational];
        for (choice, expected) in CHOICES.into_iter().zip(tables) {
            for (left, row) in "TFU".chars().zip(expected) {
                for (right, expected) in "TFU".chars().zip(row.chars()) {
                    let mut table = Table::new();
                    let a = push_truth(&mut table, left);
                    let b = push_truth(&mut table, right);
                    let node = table.push((connective.node)(a, b));
                    let kind = table.nodes[node as usize].kind;
                    let found = calls.verdict(choice, &table.constraint(node));
                    assert_eq!(found, byte(expected), "{left} {kind} {right}, {choice}");
                }
            }
        }
    }
}

fn not_of_each_value(calls: &dyn Calls) {
    for (choice, expected) in CHOICES.into_iter().zip(["FTU", "FTU", "FTT"]) {
        for (operand, expected) in "TFU".chars().zip(expected.chars()) {
            let mut table = Table::new();
            let a = push_truth(&mut table, operand);
            let node = table.push(Node::not(a));
            assert_eq!(
                calls.verdict(choice, &table.constraint(node)),
                byte(expected)
            );
        }
    }
}

fn bool_to_int_of_each_value(calls: &dyn Calls) {
    // Whether boolToInt equals 1, and whether it equals 0.
    let expected = [["TFU", "FTU"], ["TFU", "FTU"], ["TFF", "FTT"]];
    for (choice, expected) in CHOICES.into_iter().zip(expected) {
        for (value, expected) in [1, 0].into_iter().zip(expected) {
            for (operand, expected) in "TFU".chars().zip(expected.chars()) {
                let mut table = Table::new();
                let a = push_truth(&mut table, operand);
                let number = table.push(Node::bool_to_int(a));
                let value = table.push(Node::constant(value));
                let node = table.push(Node::equal(number, value));
                assert_eq!(
                    calls.verdict(choice, &table.constraint(node)),
                    byte(expected)
                );
            }
        }
    }
}

fn comparisons(calls: &dyn Calls) {
    // Rows and columns go by −1, 0, 1 and undefined.
    let values = [Some(-1), Some(0), Some(1), None];
    type Comparison = (fn(i32, i32) -> Node, [&'static str; 4]);
    let tables: [Comparison; 4] = [
        (Node::equal, ["TFFU", "FTFU", "FFTU", "UUUU"]),
        (Node::unequal, ["FTTU", "TFTU", "TTFU", "UUUU"]),
        (Node::at_most, ["TTTU", "FTTU", "FFTU", "UUUU"]),
        (Node::below, ["FTTU", "FFTU", "FFFU", "UUUU"]),
    ];
    for (comparison, rows) in tables {
        for (left, row) in values.into_iter().zip(rows) {
            for (right, expected) in values.into_iter().zip(row.chars()) {
                let mut table = Table::new();
                let a = push_integer(&mut table, left);
                let b = push_integer(&mut table, right);
                let node = table.push(comparison(a, b));
                assert_atom(calls, &table.constraint(node), expected);
            }
        }
    }
}

/// A comparison or Boolean lookup: where the other readings find it undefined,
/// the relational one finds it false.
fn assert_atom(calls: &dyn Calls, table: &Table, expected: char) {
    for choice in CHOICES {
        let expected = match expected {
            'U' if choice == RELATIONAL => 'F',
            letter => letter,
        };
        assert_eq!(
            calls.verdict(choice, table),
            byte(expected),
            "{choice} {table:?}"
        );
    }
}

fn bool_lookups(calls: &dyn Calls) {
    let indices = [Some(-1), Some(0), Some(1), Some(2), Some(3), None];
    for (index, expected) in indices.into_iter().zip("UUTFUU".chars()) {
        let elements = [Element::Constant(1), Element::Constant(0)];
        let mut table = Table::new().array(Type::Bool, 1, &elements);
        let index = push_integer(&mut table, index);
        let node = table.push(Node::bool_lookup(0, index));
        assert_atom(calls, &table.constraint(node), expected);
    }
}

fn integer_lookups(calls: &dyn Calls) {
    // Array 7, 8 from index −1: is the element 8?
    let indices = [Some(-2), Some(-1), Some(0), Some(1), None];
    for (index, expected) in indices.into_iter().zip("UFTUU".chars()) {
        let mut table = Table::new().constants(-1, &[7, 8]);
        let index = push_integer(&mut table, index);
        let element = table.push(Node::lookup(0, index));
        let eight = table.push(Node::constant(8));
        let node = table.push(Node::equal(element, eight));
        assert_atom(calls, &table.constraint(node), expected);
    }
}

fn integer_operations_with_an_undefined_operand(calls: &dyn Calls) {
    let operations: [fn(i32, i32) -> Node; 7] = [
        Node::add,
        Node::subtract,
        Node::multiply,
        Node::div,
        Node::modulo,
        Node::min,
        Node::max,
    ];
    for operation in operations {
        for (left, right) in [(None, Some(1)), (Some(1), None), (None, None)] {
            let mut table = Table::new();
            let a = push_integer(&mut table, left);
            let b = push_integer(&mut table, right);
            let value = table.push(operation(a, b));
            let node = table.push(Node::equal(value, value));
            assert_atom(calls, &table.constraint(node), 'U');
        }
    }
    let mut table = Table::new();
    let a = push_integer(&mut table, None);
    let value = table.push(Node::negate(a));
    let node = table.push(Node::equal(value, value));
    assert_atom(calls, &table.constraint(node), 'U');
}

fn division_by_zero_is_undefined(calls: &dyn Calls) {
    for operation in [Node::div, Node::modulo] {
        for dividend in [-1, 0, 1] {
            let mut table = Table::new();
            let a = push_integer(&mut table, Some(dividend));
            let b = push_integer(&mut table, Some(0));
            let value = table.push(operation(a, b));
            let node = table.push(Node::equal(value, value));
            assert_atom(calls, &table.constraint(node), 'U');
        }
    }
}

/// All words of up to three letters.
fn words(letters: &str) -> Vec<String> {
    let mut all = vec![String::new()];
    let mut start = 0;
    for _ in 0..3 {
        let end = all.len();
        for place in start..end {
            for letter in letters.chars() {
                all.push(format!("{}{letter}", all[place]));
            }
        }
        start = end;
    }
    all
}

/// A table with a slot over the letters of a word and a node whose value at
/// each is the quotient of two array elements: the numerator, or undefined.
fn push_quotients(numerators: &[Option<i32>]) -> (Table, i32) {
    let tops: Vec<i32> = numerators.iter().map(|top| top.unwrap_or(1)).collect();
    let bottoms: Vec<i32> = numerators
        .iter()
        .map(|top| i32::from(top.is_some()))
        .collect();
    let mut table = Table::new().slot(1, numerators.len() as i32);
    if numerators.is_empty() {
        table = table.constants(1, &[1]).constants(1, &[0]);
    } else {
        table = table.constants(1, &tops).constants(1, &bottoms);
    }
    let index = table.push(Node::slot(0));
    let top = table.push(Node::lookup(0, index));
    let bottom = table.push(Node::lookup(1, index));
    let quotient = table.push(Node::div(top, bottom));
    (table, quotient)
}

/// The values of a quantifier, by which letters its body takes: none, T, F, U,
/// T and F, T and U, F and U, all three.
const LETTER_SETS: [&str; 8] = ["", "T", "F", "U", "TF", "TU", "FU", "TFU"];

fn letter_set(word: &str) -> usize {
    let occurs = |letter: &char| word.contains(*letter);
    let set: String = "TFU".chars().filter(occurs).collect();
    LETTER_SETS
        .iter()
        .position(|&letters| letters == set)
        .expect("a word of T, F and U")
}

fn quantifiers(calls: &dyn Calls) {
    // Strict, Kleene, relational. The relational reading takes U for F.
    let exists = ["FTFUTUUU", "FTFUTTUT", "FTFFTTFT"];
    let forall = ["TTFUFUUU", "TTFUFUFF", "TTFFFFFF"];
    let quantifiers: [fn(i32, i32) -> Node; 2] = [Node::exists, Node::forall];
    for (quantifier, tables) in quantifiers.into_iter().zip([exists, forall]) {
        for word in words("TFU") {
            let numerators: Vec<Option<i32>> = word
                .chars()
                .map(|letter| match letter {
                    'U' => None,
                    letter => Some(i32::from(byte(letter))),
                })
                .collect();
            let (mut table, quotient) = push_quotients(&numerators);
            let one = table.push(Node::constant(1));
            let body = table.push(Node::equal(quotient, one));
            let node = table.push(quantifier(0, body));
            let table = table.constraint(node);
            for (choice, expected) in CHOICES.into_iter().zip(tables) {
                let expected = expected.as_bytes()[letter_set(&word)];
                let found = calls.verdict(choice, &table);
                assert_eq!(found, byte(char::from(expected)), "{word} {choice}");
            }
        }
    }
}

fn sums(calls: &dyn Calls) {
    for word in words("25U") {
        let numerators: Vec<Option<i32>> = word
            .chars()
            .map(|letter| letter.to_digit(10).map(|digit| digit as i32))
            .collect();
        let total: i32 = numerators.iter().flatten().sum();
        for (claim, right) in [(total, true), (total + 1, false)] {
            let (mut table, quotient) = push_quotients(&numerators);
            let sum = table.push(Node::sum(0, quotient));
            let claim = table.push(Node::constant(claim));
            let node = table.push(Node::equal(sum, claim));
            let expected = match (word.contains('U'), right) {
                (true, _) => 'U',
                (false, true) => 'T',
                (false, false) => 'F',
            };
            assert_atom(calls, &table.constraint(node), expected);
        }
    }
}

/// Says that a sum over slot 0 equals a number, under every reading.
fn assert_sum(calls: &dyn Calls, mut table: Table, body: i32, expected: i32) {
    let sum = table.push(Node::sum(0, body));
    let number = table.push(Node::constant(expected));
    let node = table.push(Node::equal(sum, number));
    let table = table.constraint(node);
    for choice in CHOICES {
        assert_eq!(calls.verdict(choice, &table), 1, "{table:?}");
    }
}

fn the_innermost_binding_wins(calls: &dyn Calls) {
    // The sum over s in 1..3 of the sum over s of s is three times 6.
    let mut table = Table::new().slot(1, 3);
    let s = table.push(Node::slot(0));
    let inner = table.push(Node::sum(0, s));
    assert_sum(calls, table, inner, 18);
}

fn the_outer_setting_comes_back(calls: &dyn Calls) {
    // The sum over s in 1..3 of (the sum over s of s) + s is 18 + 6, and each
    // quantifier inside leaves s as it was.
    let mut table = Table::new().slot(1, 3);
    let s = table.push(Node::slot(0));
    let inner = table.push(Node::sum(0, s));
    let body = table.push(Node::add(inner, s));
    assert_sum(calls, table, body, 24);
    for quantifier in [Node::exists, Node::forall] {
        let mut table = Table::new().slot(1, 3);
        let s = table.push(Node::slot(0));
        let holds = table.push(Node::at_most(s, s));
        let quantified = table.push(quantifier(0, holds));
        let number = table.push(Node::bool_to_int(quantified));
        let body = table.push(Node::multiply(number, s));
        assert_sum(calls, table, body, 6);
    }
}

fn two_slots_do_not_mix(calls: &dyn Calls) {
    // The sum over s in 1..3 and t in 10..11 of s times t is 6 times 21.
    let mut table = Table::new().slot(1, 3).slot(10, 11);
    let s = table.push(Node::slot(0));
    let t = table.push(Node::slot(1));
    let product = table.push(Node::multiply(s, t));
    let inner = table.push(Node::sum(1, product));
    assert_sum(calls, table, inner, 126);
}

fn a_shared_node_takes_each_binding(calls: &dyn Calls) {
    // s is one node, under two binders: (∃s in 1..2: s = 2) and s = 1 for
    // some outer s.
    let mut table = Table::new().slot(1, 2);
    let s = table.push(Node::slot(0));
    let two = table.push(Node::constant(2));
    let one = table.push(Node::constant(1));
    let is_two = table.push(Node::equal(s, two));
    let some = table.push(Node::exists(0, is_two));
    let is_one = table.push(Node::equal(s, one));
    let both = table.push(Node::and(some, is_one));
    let node = table.push(Node::exists(0, both));
    let table = table.constraint(node);
    for choice in CHOICES {
        assert_eq!(calls.verdict(choice, &table), 1);
    }
}
