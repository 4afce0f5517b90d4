//! Both sides of every limit: sizes, values, intervals, steps and depth.

use super::{on_a_usual_stack, Trial};
use crate::calls::{refused, Calls, CHOICES, MOST_BYTES, STRICT};
use crate::{cost, limits, Element, Node, Table, Type};

/// All trials of this file.
pub const TRIALS: &[Trial] = trials![
    counts_of_records,
    full_declarations_are_used,
    the_last_of_each_section_can_be_named,
    lengths_of_tables,
    many_constraints,
    translations_beyond_the_longest_table,
    constants,
    values_met_by_operations,
    a_value_beyond_is_met_below_small_ones,
    every_operand_is_met,
    nodes_that_are_not_met,
    elements_count_only_when_looked_up,
    variables_beyond_the_limit,
    partial_sums_do_not_count,
    nothing_overflows_after_a_value_beyond,
    intervals_of_binary_operations,
    signs_of_intervals,
    intervals_of_the_rest,
    intervals_of_sums_at_the_limit,
    intervals_above_a_remainder,
    the_first_interval_beyond_is_reported,
    steps_near_every_budget,
    steps_of_nested_ranges,
    deep_chains,
    deep_chains_translated,
];

/// The largest value allowed.
const LIMIT: i32 = 2_000_000_000;

fn counts_of_records(calls: &dyn Calls) {
    assert_eq!(calls.checked(&limits::variables(256).bytes()), (0, 0));
    assert_eq!(calls.checked(&limits::variables(257).bytes()), (3, 257));
    assert_eq!(calls.checked(&limits::slots(16).bytes()), (0, 0));
    assert_eq!(calls.checked(&limits::slots(17).bytes()), (3, 17));
    assert_eq!(calls.checked(&limits::arrays(64).bytes()), (0, 0));
    assert_eq!(calls.checked(&limits::arrays(65).bytes()), (3, 129));
    assert_eq!(calls.checked(&limits::elements(1).bytes()), (0, 0));
    assert_eq!(calls.checked(&limits::elements(1_024).bytes()), (0, 0));
    assert_eq!(calls.checked(&limits::elements(0).bytes()), (3, 1));
    assert_eq!(calls.checked(&limits::elements(1_025).bytes()), (3, 1));
    assert_eq!(calls.checked(&limits::slot_values(10_000).bytes()), (0, 0));
    assert_eq!(calls.checked(&limits::slot_values(10_001).bytes()), (3, 1));
}

fn full_declarations_are_used(calls: &dyn Calls) {
    for choice in CHOICES {
        assert_eq!(calls.verdict(choice, &limits::elements(1_024)), 1);
        assert_eq!(calls.verdict(choice, &limits::slot_values(10_000)), 1);
        assert_eq!(calls.verdict(choice, &limits::slots(16)), 1);
        assert_eq!(calls.verdict(choice, &limits::arrays(64)), 1);
        let table = limits::variables(256).bytes();
        assert_eq!(calls.verdicts(choice, &table, &[1; 256]), Ok(vec![1]));
        let short = calls.verdicts(choice, &table, &[1; 255]);
        assert_eq!(short, Err(refused(10, 0)));
    }
}

fn the_last_of_each_section_can_be_named(calls: &dyn Calls) {
    let mut table = Table::new();
    for number in 0..256 {
        table = table.variable(number, number);
    }
    for number in 0..16 {
        table = table.slot(number, number);
    }
    for number in 0..64 {
        table = table.array(Type::Integer, 0, &[Element::Variable(number + 192)]);
    }
    let variable = table.push(Node::variable(255));
    let slot = table.push(Node::slot(15));
    let zero = table.push(Node::constant(0));
    let element = table.push(Node::lookup(63, zero));
    let same = table.push(Node::equal(variable, element));
    let fifteen = table.push(Node::constant(15));
    let is_fifteen = table.push(Node::equal(slot, fifteen));
    let both = table.push(Node::and(same, is_fifteen));
    let node = table.push(Node::forall(15, both));
    let bytes = table.constraint(node).bytes();
    let values: Vec<i32> = (0..256).collect();
    for choice in CHOICES {
        assert_eq!(calls.verdicts(choice, &bytes, &values), Ok(vec![1]));
        let out = calls
            .translated(choice, &bytes)
            .expect("a table within bounds");
        assert_eq!(calls.verdicts(choice, &out, &values), Ok(vec![1]));
    }
}

fn lengths_of_tables(calls: &dyn Calls) {
    let longest = limits::records(5_000).bytes();
    assert_eq!(longest.len(), 60_000);
    assert_eq!(calls.checked(&longest), (0, 0));
    assert_eq!(calls.verdicts(STRICT, &longest, &[]), Ok(vec![1]));
    let longer = limits::records(5_001).bytes();
    assert_eq!(longer.len(), 60_012);
    assert_eq!(calls.checked(&longer), (1, 0));
}

fn many_constraints(calls: &dyn Calls) {
    let start = Table::new().node(Node::truth(1));
    let table = (0..4_998).fold(start, |table, _| table.constraint(0));
    let bytes = table.bytes();
    assert_eq!(bytes.len(), 60_000);
    let mut room = vec![9; 4_999];
    let answer = calls.evaluate(STRICT, &bytes, &[], 4_998, &mut room);
    assert_eq!((answer.number, answer.steps), (0, 4_998));
    assert_eq!((answer.length, answer.all_true), (4_998, true));
    assert!(room[..4_998].iter().all(|&verdict| verdict == 1));
    assert_eq!(room[4_998], 9);
    let answer = calls.evaluate(STRICT, &bytes, &[], 4_997, &mut room);
    assert_eq!(answer, refused(11, 0));
}

fn translations_beyond_the_longest_table(calls: &dyn Calls) {
    // A truth value becomes two nodes, so 2,499 of them and a constraint make
    // exactly 5,000 records.
    let fits = limits::records(2_501);
    let too_long = limits::records(2_502);
    for choice in CHOICES {
        let mut out = vec![9; MOST_BYTES + 1_000];
        let answer = calls.translate(choice, &fits.bytes(), &mut out);
        assert_eq!((answer.number, answer.length), (0, 60_000));
        assert!(out[MOST_BYTES..].iter().all(|&byte| byte == 9));
        assert_eq!(calls.checked(&out[..MOST_BYTES]), (0, 0));
        let mut out = vec![9; MOST_BYTES + 1_000];
        let answer = calls.translate(choice, &too_long.bytes(), &mut out);
        assert_eq!(answer, refused(9, 0));
        assert!(out.iter().all(|&byte| byte == 9));
    }
}

fn constants(calls: &dyn Calls) {
    for choice in CHOICES {
        for value in [LIMIT, -LIMIT] {
            let table = limits::constant(value).bytes();
            assert!(calls.translated(choice, &table).is_ok());
            assert_eq!(calls.verdicts(choice, &table, &[]), Ok(vec![1]));
        }
        for value in [LIMIT + 1, -LIMIT - 1, i32::MAX, i32::MIN] {
            let table = limits::constant(value).bytes();
            assert_eq!(calls.translated(choice, &table), Err(refused(8, 1)));
            assert_eq!(calls.verdicts(choice, &table, &[]), Err(refused(8, 0)));
        }
    }
}

/// Evaluates a table without variables under each reading and says whether
/// all of them refuse it with 8, or none.
fn meets_a_value_beyond(calls: &dyn Calls, table: &Table) -> bool {
    let beyond = CHOICES.map(|choice| match calls.verdicts(choice, &table.bytes(), &[]) {
        Ok(_) => false,
        Err(answer) => {
            assert_eq!(answer, refused(8, 0));
            true
        }
    });
    assert!(beyond == [true; 3] || beyond == [false; 3]);
    beyond[0]
}

/// Whether `value = value` meets a value beyond the limit.
fn is_beyond(calls: &dyn Calls, mut table: Table, value: i32) -> bool {
    let node = table.push(Node::equal(value, value));
    meets_a_value_beyond(calls, &table.constraint(node))
}

fn values_met_by_operations(calls: &dyn Calls) {
    let operations: [(Node, i32, i32, bool); 12] = [
        (Node::add(0, 1), LIMIT, 0, false),
        (Node::add(0, 1), LIMIT, 1, true),
        (Node::subtract(0, 1), -LIMIT, 0, false),
        (Node::subtract(0, 1), -LIMIT, 1, true),
        (Node::multiply(0, 1), LIMIT, -1, false),
        (Node::multiply(0, 1), 44_722, 44_722, true),
        (Node::multiply(0, 1), LIMIT, LIMIT, true),
        (Node::multiply(0, 1), LIMIT, -LIMIT, true),
        (Node::div(0, 1), -LIMIT, -1, false),
        (Node::modulo(0, 1), 1 - LIMIT, LIMIT, false),
        (Node::negate(0), -LIMIT, 0, false),
        (Node::max(0, 1), LIMIT, -LIMIT, false),
    ];
    for (node, a, b, expected) in operations {
        let table = Table::new()
            .node(Node::constant(a))
            .node(Node::constant(b))
            .node(node);
        assert_eq!(
            is_beyond(calls, table, 2),
            expected,
            "{node:?} of {a} and {b}"
        );
    }
}

fn a_value_beyond_is_met_below_small_ones(calls: &dyn Calls) {
    // 2,000,000,001 div 2 is small, but its operand is met.
    let table = Table::new()
        .node(Node::constant(LIMIT + 1))
        .node(Node::constant(2))
        .node(Node::div(0, 1));
    assert!(is_beyond(calls, table, 2));
    // Divided or dividing, i32::MIN is beyond, whatever its quotient or remainder.
    for operation in [Node::div(0, 1), Node::modulo(0, 1)] {
        for other in [0, 1, -1, LIMIT, -LIMIT, i32::MIN] {
            for (a, b) in [(i32::MIN, other), (other, i32::MIN)] {
                let table = Table::new()
                    .node(Node::constant(a))
                    .node(Node::constant(b))
                    .node(operation);
                assert!(is_beyond(calls, table, 2), "{operation:?} of {a} and {b}");
            }
        }
    }
}

fn every_operand_is_met(calls: &dyn Calls) {
    // true ∨ e, false ∧ e, e undefined on one side: e's values are met.
    let start = Table::new()
        .node(Node::constant(LIMIT + 1))
        .node(Node::equal(0, 0))
        .node(Node::truth(1))
        .node(Node::truth(0))
        .node(Node::constant(0))
        .node(Node::div(4, 4));
    let walked = [
        Node::or(2, 1),
        Node::and(3, 1),
        Node::implies(3, 1),
        Node::equal(5, 0),
        Node::equal(0, 5),
    ];
    for node in walked {
        let table = start.clone().node(node).constraint(6);
        assert!(meets_a_value_beyond(calls, &table), "{node:?}");
    }
    let undefined = [Node::add(5, 0), Node::div(0, 4), Node::lookup(0, 0)];
    for node in undefined {
        let table = start.clone().constants(0, &[1]).node(node);
        assert!(is_beyond(calls, table, 6), "{node:?}");
    }
}

fn nodes_that_are_not_met(calls: &dyn Calls) {
    // No constraint reaches the constant.
    let table = limits::constant(LIMIT + 1).node(Node::truth(1));
    let table = Table {
        constraints: vec![2],
        ..table
    };
    assert!(!meets_a_value_beyond(calls, &table));
    // The range is empty.
    for binder in [Node::exists(0, 1), Node::forall(0, 1)] {
        let table = Table::new()
            .slot(1, 0)
            .node(Node::constant(LIMIT + 1))
            .node(Node::equal(0, 0))
            .node(binder)
            .constraint(2);
        assert!(!meets_a_value_beyond(calls, &table));
    }
    let table = Table::new()
        .slot(1, 0)
        .node(Node::constant(LIMIT + 1))
        .node(Node::sum(0, 0));
    assert!(!is_beyond(calls, table, 1));
}

fn elements_count_only_when_looked_up(calls: &dyn Calls) {
    for (index, expected) in [(0, false), (1, true), (2, false), (3, false)] {
        let table = Table::new()
            .constants(0, &[7, LIMIT + 1, -LIMIT])
            .node(Node::constant(index))
            .node(Node::lookup(0, 0));
        assert_eq!(is_beyond(calls, table, 1), expected, "index {index}");
    }
}

fn variables_beyond_the_limit(calls: &dyn Calls) {
    let bytes = Table::new()
        .variable(LIMIT, i32::MAX)
        .node(Node::variable(0))
        .node(Node::equal(0, 0))
        .constraint(1)
        .bytes();
    for choice in CHOICES {
        assert_eq!(calls.verdicts(choice, &bytes, &[LIMIT]), Ok(vec![1]));
        let above = calls.verdicts(choice, &bytes, &[LIMIT + 1]);
        assert_eq!(above, Err(refused(8, 0)));
        assert_eq!(calls.translated(choice, &bytes), Err(refused(8, 2)));
    }
    // A variable that no node names is no fault.
    let unnamed = Table::new().variable(i32::MIN, i32::MAX).bytes();
    assert!(calls.translated(STRICT, &unnamed).is_ok());
    assert_eq!(calls.verdicts(STRICT, &unnamed, &[i32::MIN]), Ok(vec![]));
}

fn partial_sums_do_not_count(calls: &dyn Calls) {
    // Two thousand million twice, then minus two thousand million twice.
    let sum_of = |elements: &[i32]| {
        Table::new()
            .slot(0, elements.len() as i32 - 1)
            .constants(0, elements)
            .node(Node::slot(0))
            .node(Node::lookup(0, 0))
            .node(Node::sum(0, 1))
    };
    assert!(!is_beyond(
        calls,
        sum_of(&[LIMIT, LIMIT, -LIMIT, -LIMIT]),
        2
    ));
    assert!(!is_beyond(calls, sum_of(&[LIMIT, LIMIT, -LIMIT]), 2));
    assert!(is_beyond(calls, sum_of(&[LIMIT, LIMIT]), 2));
    assert!(is_beyond(calls, sum_of(&[LIMIT, 1, LIMIT + 1]), 2));
}

fn nothing_overflows_after_a_value_beyond(calls: &dyn Calls) {
    // Squares of squares, sums of them, and a sum of 10,000 values.
    let mut table = Table::new().slot(1, 10).slot(1, 10_000);
    let mut value = table.push(Node::constant(i32::MIN));
    for operation in [Node::multiply, Node::add, Node::multiply, Node::subtract] {
        let sum = table.push(Node::sum(0, value));
        let negated = table.push(Node::negate(sum));
        value = table.push(operation(negated, sum));
    }
    let large = table.push(Node::constant(i32::MAX));
    let sum = table.push(Node::sum(1, large));
    let square = table.push(Node::multiply(sum, sum));
    let quotient = table.push(Node::div(square, value));
    let remainder = table.push(Node::modulo(quotient, sum));
    assert!(is_beyond(calls, table, remainder));
}

/// Translates a table and gives the node that is refused with 8, if any.
fn node_beyond(calls: &dyn Calls, table: &Table) -> Option<u32> {
    let results = CHOICES.map(|choice| calls.translated(choice, &table.bytes()).err());
    assert!(results.iter().all(|&result| result == results[0]));
    results[0].map(|answer| {
        let node = answer.record - table.first_node_record() as u32;
        assert_eq!(answer, refused(8, answer.record));
        node
    })
}

/// Says that a node's interval has an end of this magnitude and no larger one.
fn assert_magnitude(calls: &dyn Calls, table: &Table, node: i32, magnitude: i32) {
    let times = |factor: i32| {
        let mut table = table.clone();
        let factor = table.push(Node::constant(factor));
        let product = table.push(Node::multiply(node, factor));
        (table, product)
    };
    let most = LIMIT / magnitude;
    let (within, _) = times(most);
    assert_eq!(node_beyond(calls, &within), None, "{table:?}");
    let (beyond, product) = times(most + 1);
    assert_eq!(
        node_beyond(calls, &beyond),
        Some(product as u32),
        "{table:?}"
    );
}

fn intervals_of_binary_operations(calls: &dyn Calls) {
    // Domains of two variables, the operation, the largest magnitude.
    let cases = [
        ((-3, 5), (-7, 2), Node::add(0, 1), 10),
        ((-3, 5), (-7, 8), Node::add(0, 1), 13),
        ((-3, 5), (-7, 2), Node::subtract(0, 1), 12),
        ((-3, 5), (0, 20), Node::subtract(0, 1), 23),
        ((-3, 5), (-7, 2), Node::multiply(0, 1), 35),
        ((-9, 5), (-7, 2), Node::multiply(0, 1), 63),
        ((-9, 5), (-1, 8), Node::multiply(0, 1), 72),
        ((2, 3), (4, 5), Node::multiply(0, 1), 15),
        ((-3, 10), (4, 5), Node::div(0, 1), 10),
        ((-11, 10), (4, 5), Node::div(0, 1), 11),
        ((-3, 10), (-5, 3), Node::modulo(0, 1), 4),
        ((-3, 10), (-5, 8), Node::modulo(0, 1), 7),
        ((0, 2), (0, 8), Node::modulo(0, 1), 7),
        ((0, 5), (3, 4), Node::min(0, 1), 4),
        ((3, 4), (0, 5), Node::min(0, 1), 4),
        ((-5, 0), (-4, -3), Node::min(0, 1), 5),
        ((0, 5), (3, 4), Node::max(0, 1), 5),
        ((-5, 0), (-4, -3), Node::max(0, 1), 4),
        ((-4, -3), (-5, 0), Node::max(0, 1), 4),
        ((-9, 5), (-7, 2), Node::negate(0), 9),
        ((-3, 5), (-7, 2), Node::negate(0), 5),
    ];
    for (a, b, node, magnitude) in cases {
        let table = Table::new()
            .variable(a.0, a.1)
            .variable(b.0, b.1)
            .node(Node::variable(0))
            .node(Node::variable(1))
            .node(node);
        assert_magnitude(calls, &table, 2, magnitude);
    }
}

fn signs_of_intervals(calls: &dyn Calls) {
    // div and mod have both signs, negate turns the ends round: the sum with a
    // constant shows which end is where.
    let cases = [
        (Node::modulo(0, 1), -4, 4),
        (Node::div(0, 1), -10, 10),
        (Node::negate(0), -10, 3),
        (Node::subtract(0, 1), -6, 15),
        (Node::bool_to_int(2), 0, 1),
    ];
    for (node, low, high) in cases {
        let start = Table::new()
            .variable(-3, 10)
            .variable(-5, 3)
            .node(Node::variable(0))
            .node(Node::variable(1))
            .node(Node::below(0, 1))
            .node(node);
        let with = |constant: i32| {
            let table = start.clone().node(Node::constant(constant));
            node_beyond(calls, &table.node(Node::add(3, 4)))
        };
        // An end at 0 leaves no room: the constant itself is beyond.
        let refused_node = |end: i32| Some(if end == 0 { 4 } else { 5 });
        assert_eq!(with(LIMIT - high), None, "{node:?}");
        assert_eq!(with(LIMIT - high + 1), refused_node(high), "{node:?}");
        assert_eq!(with(-LIMIT - low), None, "{node:?}");
        assert_eq!(with(-LIMIT - low - 1), refused_node(low), "{node:?}");
    }
}

fn intervals_of_the_rest(calls: &dyn Calls) {
    // mod by a divisor that is only 0 yields 0..0.
    let table = Table::new()
        .node(Node::constant(5))
        .node(Node::constant(0))
        .node(Node::modulo(0, 1))
        .node(Node::constant(LIMIT))
        .node(Node::add(2, 3));
    assert_eq!(node_beyond(calls, &table), None);
    // A lookup has the hull of its elements, variables by domain.
    let elements = [Element::Constant(3), Element::Variable(0)];
    let table = Table::new()
        .variable(-4, 1)
        .array(Type::Integer, 0, &elements)
        .node(Node::constant(9))
        .node(Node::lookup(0, 0));
    assert_magnitude(calls, &table, 1, 4);
    // A slot has its range, and its first value if the range is empty.
    let table = Table::new().slot(-3, 2).node(Node::slot(0));
    assert_magnitude(calls, &table, 0, 3);
    let table = Table::new().slot(5, -50).node(Node::slot(0));
    assert_magnitude(calls, &table, 0, 5);
    // A sum has the body's ends times the number of values.
    let table = Table::new()
        .slot(1, 4)
        .variable(-5, 2)
        .node(Node::variable(0))
        .node(Node::sum(0, 0));
    assert_magnitude(calls, &table, 1, 20);
}

/// x mod a divisor, less a number, with x in 0..10, and a constant beyond the limit behind it.
fn intervals_above_a_remainder(calls: &dyn Calls) {
    let cases = [
        (LIMIT, 1, 5),
        (LIMIT, 2, 4),
        (1 - LIMIT, 2, 5),
        (1 - LIMIT, 3, 4),
        (1, LIMIT, 5),
    ];
    for (divisor, less, node) in cases {
        let table = Table::new()
            .variable(0, 10)
            .node(Node::variable(0))
            .node(Node::constant(divisor))
            .node(Node::modulo(0, 1))
            .node(Node::constant(less))
            .node(Node::subtract(2, 3))
            .node(Node::constant(LIMIT + 1));
        assert_eq!(node_beyond(calls, &table), Some(node), "{divisor}, {less}");
    }
}

fn intervals_of_sums_at_the_limit(calls: &dyn Calls) {
    let sum = |count: i32, value: i32| {
        Table::new()
            .slot(1, count)
            .node(Node::constant(value))
            .node(Node::sum(0, 0))
    };
    assert_eq!(node_beyond(calls, &sum(10_000, 200_000)), None);
    assert_eq!(node_beyond(calls, &sum(10_000, 200_001)), Some(1));
    assert_eq!(node_beyond(calls, &sum(10_000, -200_000)), None);
    assert_eq!(node_beyond(calls, &sum(10_000, -200_001)), Some(1));
    assert_eq!(node_beyond(calls, &sum(10_000, LIMIT)), Some(1));
    assert_eq!(node_beyond(calls, &sum(0, LIMIT)), None);
    assert_eq!(node_beyond(calls, &sum(-5, LIMIT)), None);
}

fn the_first_interval_beyond_is_reported(calls: &dyn Calls) {
    // Not the constraint's node, not the last, reached or not.
    let table = Table::new()
        .constants(0, &[i32::MAX])
        .node(Node::truth(1))
        .node(Node::constant(3))
        .node(Node::lookup(0, 1))
        .node(Node::constant(i32::MIN))
        .constraint(0);
    assert_eq!(node_beyond(calls, &table), Some(2));
    let array_alone = Table::new().constants(0, &[i32::MAX, i32::MIN]);
    assert_eq!(node_beyond(calls, &array_alone), None);
}

fn steps_near_every_budget(calls: &dyn Calls) {
    // Depth n costs 2^(n + 1) − 1, and a range of n around true costs n + 1.
    let largest = limits::doubling(31);
    assert_eq!(cost::steps(&largest), u128::from(u32::MAX));
    let table = largest.bytes();
    let answer = calls.evaluate(STRICT, &table, &[], u32::MAX - 1, &mut [0]);
    assert_eq!(answer, refused(11, 0));
    let over = largest.node(Node::truth(1)).constraint(32).bytes();
    let answer = calls.evaluate(STRICT, &over, &[], u32::MAX, &mut [0; 2]);
    assert_eq!(answer, refused(11, 0));
    for depth in [32, 33, 63, 64, 65, 127, 128, 4_900] {
        let table = limits::doubling(depth).bytes();
        let answer = calls.evaluate(STRICT, &table, &[], u32::MAX, &mut [0]);
        assert_eq!(answer, refused(11, 0), "depth {depth}");
    }
}

fn steps_of_nested_ranges(calls: &dyn Calls) {
    let steps = |sizes: &[i32]| {
        let table = limits::nested(sizes);
        let answer = calls.evaluate(STRICT, &table.bytes(), &[], u32::MAX, &mut [0]);
        assert_eq!(u128::from(answer.steps), cost::steps(&table));
        answer.steps
    };
    assert_eq!(steps(&[10_000]), 10_001);
    assert_eq!(steps(&[100, 1_000]), 101_001);
    assert_eq!(steps(&[10, 10, 10]), 1_111);
    assert_eq!(steps(&[10, 0, 10]), 11);
    // Beyond every budget below an empty range: taken no times.
    assert_eq!(steps(&[10_000, 10_000, 10_000, 10_000, 10_000, 0]), 1);
    assert_eq!(steps(&[10_000, 10_000, 10_000, 10_000, 0, 5]), 6);
    let table = limits::nested(&[10_000; 16]).bytes();
    let answer = calls.evaluate(STRICT, &table, &[], u32::MAX, &mut [0]);
    assert_eq!(answer, refused(11, 0));
}

fn deep_chains(calls: &dyn Calls) {
    on_a_usual_stack(&|| {
        for choice in CHOICES {
            assert_eq!(calls.verdict(choice, &limits::chain_of_nots(4_900)), 1);
            assert_eq!(calls.verdict(choice, &limits::chain_of_nots(4_901)), 0);
            assert_eq!(calls.verdict(choice, &limits::chain_of_adds(4_900)), 1);
            assert_eq!(calls.verdict(choice, &limits::chain_of_foralls(4_900)), 1);
            assert_eq!(calls.verdict(choice, &limits::chain_of_types(4_900)), 1);
            // The deepest that 5,000 records have room for.
            assert_eq!(calls.verdict(choice, &limits::chain_of_nots(4_997)), 0);
            assert_eq!(calls.verdict(choice, &limits::chain_of_adds(4_996)), 1);
            assert_eq!(calls.verdict(choice, &limits::chain_of_foralls(4_996)), 1);
        }
    });
}

fn deep_chains_translated(calls: &dyn Calls) {
    on_a_usual_stack(&|| {
        for choice in CHOICES {
            let nots = limits::chain_of_nots(4_901).bytes();
            let out = calls.translated(choice, &nots).expect("not writes nothing");
            assert_eq!(out.len(), 4 * 12);
            assert_eq!(calls.verdicts(choice, &out, &[]), Ok(vec![0]));
            let adds = limits::chain_of_adds(2_400).bytes();
            let out = calls.translated(choice, &adds).expect("it fits");
            assert_eq!(calls.verdicts(choice, &out, &[]), Ok(vec![1]));
            let long = limits::chain_of_adds(4_900).bytes();
            assert_eq!(calls.translated(choice, &long), Err(refused(9, 0)));
        }
    });
}
