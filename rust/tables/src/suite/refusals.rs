//! The check and its numbers 1 to 6, smallest tables first.

use super::{rounds, Trial};
use crate::calls::{refused, Calls};
use crate::damage::{self, damaged, with_fault};
use crate::random::{self, Plan};
use crate::{bytes_of, pretty, trials, Element, Node, Random, Row, Table, Type};

/// All trials of this file.
pub const TRIALS: &[Trial] = trials![
    sound_tables,
    lengths,
    marks_and_order,
    missing_and_spare_elements,
    fields_of_the_head,
    aux_is_always_zero,
    fields_of_variables,
    fields_of_slots,
    fields_of_arrays_and_elements,
    kinds_of_nodes,
    unused_fields_of_nodes_and_constraints,
    numbers_that_name_nothing,
    operands_are_earlier_nodes,
    operands_of_the_wrong_type,
    elements_and_constraints_of_the_wrong_type,
    a_missing_name_comes_before_a_wrong_type,
    free_slots,
    a_sum_binds_its_slot,
    a_free_slot_under_another_binder_stays_free,
    types_come_before_free_slots,
    damaged_tables_are_refused_as_foreseen,
    each_fault_can_be_asked_for,
    scrambled_tables_are_refused_alike,
    arbitrary_bytes_are_refused_alike,
    variables_as_elements_of_their_type,
];

/// The bytes of a head that counts right, and some rows.
fn with_head(rows: &[Row]) -> Vec<u8> {
    let mut all = vec![Row::head(rows.len() as i32 + 1)];
    all.extend_from_slice(rows);
    bytes_of(&all)
}

/// Says what the check finds after a right head.
fn assert_check(calls: &dyn Calls, rows: &[Row], number: u32, record: u32) {
    let bytes = with_head(rows);
    assert_eq!(
        calls.checked(&bytes),
        (number, record),
        "\n{}",
        pretty(&bytes)
    );
}

const fn row(mark: &[u8; 2], kind: u8, x: i32, y: i32) -> Row {
    Row::new(mark, kind, x, y)
}

const INTEGER_VARIABLE: Row = row(b"VR", 1, 0, 1);
const BOOL_VARIABLE: Row = row(b"VR", 0, 0, 1);
const SLOT: Row = row(b"SL", 0, 0, 1);
const INTEGER_ARRAY: Row = row(b"AR", 1, 0, 1);
const BOOL_ARRAY: Row = row(b"AR", 0, 0, 1);
const ELEMENT: Row = row(b"EL", 0, 1, 0);
const INTEGER_NODE: Row = row(b"ND", 1, 0, 0);
const BOOL_NODE: Row = row(b"ND", 2, 1, 0);
const CONSTRAINT: Row = row(b"CN", 0, 0, 0);

fn sound_tables(calls: &dyn Calls) {
    assert_check(calls, &[], 0, 0);
    assert_check(calls, &[INTEGER_VARIABLE, BOOL_VARIABLE], 0, 0);
    assert_check(calls, &[SLOT, SLOT], 0, 0);
    assert_check(calls, &[INTEGER_ARRAY, ELEMENT, BOOL_ARRAY, ELEMENT], 0, 0);
    assert_check(calls, &[INTEGER_NODE, BOOL_NODE], 0, 0);
    assert_check(calls, &[BOOL_NODE, CONSTRAINT, CONSTRAINT], 0, 0);
    let all = [
        INTEGER_VARIABLE,
        SLOT,
        BOOL_ARRAY,
        ELEMENT,
        BOOL_NODE,
        CONSTRAINT,
    ];
    assert_check(calls, &all, 0, 0);
}

fn lengths(calls: &dyn Calls) {
    let head = with_head(&[]);
    for length in [0, 1, 11, 13, 23, 60_001, 60_012, 120_000] {
        let mut bytes = head.clone();
        bytes.resize(length, 0);
        assert_eq!(calls.checked(&bytes), (1, 0), "{length} bytes");
    }
}

fn marks_and_order(calls: &dyn Calls) {
    assert_eq!(calls.checked(&[0; 12]), (2, 0));
    assert_eq!(calls.checked(&bytes_of(&[INTEGER_VARIABLE])), (2, 0));
    assert_eq!(
        calls.checked(&bytes_of(&[CONSTRAINT, Row::head(2)])),
        (2, 0)
    );
    assert_check(calls, &[row(b"XX", 0, 0, 0)], 2, 1);
    assert_check(calls, &[row(b"nd", 2, 1, 0)], 2, 1);
    assert_check(calls, &[Row::head(2)], 2, 1);
    assert_check(calls, &[ELEMENT], 2, 1);
    assert_check(calls, &[SLOT, INTEGER_VARIABLE], 2, 2);
    assert_check(calls, &[INTEGER_ARRAY, ELEMENT, SLOT], 2, 3);
    assert_check(calls, &[INTEGER_ARRAY, ELEMENT, INTEGER_VARIABLE], 2, 3);
    assert_check(calls, &[BOOL_NODE, INTEGER_ARRAY, ELEMENT], 2, 2);
    assert_check(calls, &[BOOL_NODE, CONSTRAINT, BOOL_NODE], 2, 3);
    assert_check(calls, &[BOOL_NODE, SLOT], 2, 2);
    assert_check(calls, &[BOOL_NODE, CONSTRAINT, Row::head(4)], 2, 3);
}

fn missing_and_spare_elements(calls: &dyn Calls) {
    let two = row(b"AR", 1, 0, 2);
    assert_check(calls, &[INTEGER_ARRAY], 2, 2);
    assert_check(calls, &[two, ELEMENT], 2, 3);
    assert_check(calls, &[two, ELEMENT, INTEGER_NODE], 2, 3);
    assert_check(calls, &[two, ELEMENT, INTEGER_ARRAY, ELEMENT], 2, 3);
    assert_check(calls, &[two, ELEMENT, Row::head(4)], 2, 3);
    assert_check(calls, &[INTEGER_ARRAY, ELEMENT, ELEMENT], 2, 3);
    assert_check(calls, &[INTEGER_NODE, ELEMENT], 2, 2);
    assert_check(calls, &[INTEGER_VARIABLE, ELEMENT], 2, 2);
}

fn fields_of_the_head(calls: &dyn Calls) {
    let heads = [
        row(b"HD", 0, 1, 0),
        row(b"HD", 2, 1, 0),
        row(b"HD", 1, 0, 0),
        row(b"HD", 1, 2, 0),
        row(b"HD", 1, -1, 0),
        row(b"HD", 1, 12, 0),
        row(b"HD", 1, 65_537, 0),
        row(b"HD", 1, 1, 1),
        Row {
            aux: 1,
            ..Row::head(1)
        },
    ];
    for head in heads {
        assert_eq!(calls.checked(&bytes_of(&[head])), (3, 0), "{head:?}");
    }
    // A wrong count hides every later fault.
    let rows = [Row::head(3), row(b"XX", 0, 0, 0)];
    assert_eq!(calls.checked(&bytes_of(&rows)), (3, 0));
}

fn aux_is_always_zero(calls: &dyn Calls) {
    let rows = [
        BOOL_VARIABLE,
        SLOT,
        BOOL_ARRAY,
        ELEMENT,
        BOOL_NODE,
        CONSTRAINT,
    ];
    for place in 0..rows.len() {
        let mut rows = rows;
        rows[place].aux = 1;
        assert_check(calls, &rows, 3, place as u32 + 1);
    }
}

fn fields_of_variables(calls: &dyn Calls) {
    let faulty = [
        row(b"VR", 0, 0, 0),
        row(b"VR", 0, 1, 1),
        row(b"VR", 0, 0, 2),
        row(b"VR", 0, -1, 1),
        row(b"VR", 1, 1, 0),
        row(b"VR", 1, i32::MAX, i32::MIN),
        row(b"VR", 2, 0, 1),
        row(b"VR", 255, 0, 1),
    ];
    for variable in faulty {
        assert_check(calls, &[variable], 3, 1);
    }
    assert_check(calls, &[row(b"VR", 1, i32::MIN, i32::MAX)], 0, 0);
    assert_check(calls, &[row(b"VR", 1, -5, -5)], 0, 0);
}

fn fields_of_slots(calls: &dyn Calls) {
    let limit = 1_000_000_000;
    let faulty = [
        row(b"SL", 1, 0, 1),
        row(b"SL", 0, 1, 10_001),
        row(b"SL", 0, -1, 9_999),
        row(b"SL", 0, limit + 1, limit + 1),
        row(b"SL", 0, limit + 1, 0),
        row(b"SL", 0, 0, -limit - 1),
        row(b"SL", 0, -limit - 1, -limit - 1),
        row(b"SL", 0, limit, limit + 1),
        row(b"SL", 0, i32::MIN, i32::MAX),
        row(b"SL", 0, i32::MAX, i32::MIN),
        row(b"SL", 0, -limit, limit),
    ];
    for slot in faulty {
        assert_check(calls, &[slot], 3, 1);
    }
    let sound = [
        row(b"SL", 0, 1, 10_000),
        row(b"SL", 0, 1, -1),
        row(b"SL", 0, limit, -limit),
        row(b"SL", 0, limit - 9_999, limit),
        row(b"SL", 0, -limit, -limit + 9_999),
    ];
    for slot in sound {
        assert_check(calls, &[slot], 0, 0);
    }
}

fn fields_of_arrays_and_elements(calls: &dyn Calls) {
    let limit = 1_000_000_000;
    let faulty = [
        row(b"AR", 2, 0, 1),
        row(b"AR", 1, 0, 0),
        row(b"AR", 1, 0, -1),
        row(b"AR", 1, 0, 1_025),
        row(b"AR", 1, limit + 1, 1),
        row(b"AR", 1, -limit - 1, 1),
    ];
    for array in faulty {
        // Nothing after a faulty array is looked at.
        assert_check(calls, &[array], 3, 1);
        assert_check(calls, &[array, row(b"XX", 0, 0, 0)], 3, 1);
    }
    assert_check(calls, &[row(b"AR", 1, limit, 1), ELEMENT], 0, 0);
    assert_check(calls, &[INTEGER_ARRAY, row(b"EL", 0, i32::MIN, 0)], 0, 0);
    assert_check(calls, &[INTEGER_ARRAY, row(b"EL", 2, 0, 0)], 3, 2);
    assert_check(calls, &[INTEGER_ARRAY, row(b"EL", 0, 0, 1)], 3, 2);
    assert_check(calls, &[BOOL_ARRAY, row(b"EL", 0, 2, 0)], 3, 2);
    assert_check(calls, &[BOOL_ARRAY, row(b"EL", 0, -1, 0)], 3, 2);
    assert_check(calls, &[BOOL_ARRAY, row(b"EL", 1, 0, 1)], 3, 2);
}

fn kinds_of_nodes(calls: &dyn Calls) {
    for kind in 0..=255 {
        let exists = (1..=17).contains(&kind) || (20..=30).contains(&kind);
        let node = [row(b"ND", kind, -1, 0)];
        let number = match kind {
            1 => 0,
            2 => 3,
            _ if exists => 4,
            _ => 3,
        };
        assert_check(calls, &node, number, u32::from(number != 0));
    }
}

fn unused_fields_of_nodes_and_constraints(calls: &dyn Calls) {
    let unused_y = [1, 2, 3, 4, 5, 11, 14, 24];
    let declared = [INTEGER_VARIABLE, SLOT, INTEGER_NODE, BOOL_NODE];
    for kind in unused_y {
        let mut rows = declared.to_vec();
        rows.push(row(b"ND", kind, 0, 1));
        assert_check(calls, &rows, 3, 5);
    }
    assert_check(calls, &[row(b"ND", 2, 2, 0)], 3, 1);
    assert_check(calls, &[row(b"ND", 2, -1, 0)], 3, 1);
    assert_check(calls, &[BOOL_NODE, row(b"CN", 1, 0, 0)], 3, 2);
    assert_check(calls, &[BOOL_NODE, row(b"CN", 0, 0, 1)], 3, 2);
    // 3 comes before 4.
    assert_check(calls, &[row(b"CN", 1, 5, 0)], 3, 1);
    assert_check(calls, &[row(b"ND", 11, 5, 1)], 3, 1);
    assert_check(calls, &[BOOL_ARRAY, row(b"EL", 1, 5, 1)], 3, 2);
}

fn numbers_that_name_nothing(calls: &dyn Calls) {
    for number in [1, 2, -1, 256, 65_536, i32::MIN, i32::MAX] {
        let mut rows = vec![INTEGER_VARIABLE, row(b"ND", 3, number, 0)];
        assert_check(calls, &rows, 4, 2);
        rows = vec![BOOL_VARIABLE, row(b"ND", 4, number, 0)];
        assert_check(calls, &rows, 4, 2);
        rows = vec![SLOT, row(b"ND", 5, number, 0)];
        assert_check(calls, &rows, 4, 2);
        rows = vec![INTEGER_NODE, row(b"ND", 11, number, 0)];
        assert_check(calls, &rows, 4, 2);
        rows = vec![INTEGER_ARRAY, ELEMENT, INTEGER_NODE];
        rows.push(row(b"ND", 15, number, 0));
        assert_check(calls, &rows, 4, 4);
        rows = vec![SLOT, BOOL_NODE, row(b"ND", 29, number, 0)];
        assert_check(calls, &rows, 4, 3);
        rows = vec![SLOT, BOOL_NODE, row(b"ND", 29, 0, number)];
        assert_check(calls, &rows, 4, 3);
        rows = vec![INTEGER_VARIABLE, INTEGER_ARRAY, row(b"EL", 1, number, 0)];
        assert_check(calls, &rows, 4, 3);
        rows = vec![BOOL_NODE, row(b"CN", 0, number, 0)];
        assert_check(calls, &rows, 4, 2);
    }
    assert_check(calls, &[CONSTRAINT], 4, 1);
}

fn operands_are_earlier_nodes(calls: &dyn Calls) {
    assert_check(calls, &[row(b"ND", 24, 0, 0), BOOL_NODE], 4, 1);
    assert_check(calls, &[BOOL_NODE, row(b"ND", 24, 1, 0)], 4, 2);
    assert_check(calls, &[BOOL_NODE, row(b"ND", 24, 2, 0), BOOL_NODE], 4, 2);
    assert_check(calls, &[INTEGER_NODE, row(b"ND", 6, 0, 1)], 4, 2);
}

/// Each kind with an operand of the wrong type.
fn operands_of_the_wrong_type(calls: &dyn Calls) {
    // Variable 0 and array 0 and node 0 are integer, 1 is Boolean.
    let declared = [
        INTEGER_VARIABLE,
        BOOL_VARIABLE,
        SLOT,
        INTEGER_ARRAY,
        ELEMENT,
        BOOL_ARRAY,
        ELEMENT,
        INTEGER_NODE,
        BOOL_NODE,
    ];
    let mut faulty = vec![(3, 1, 0), (4, 0, 0), (11, 1, 0), (14, 0, 0), (24, 0, 0)];
    for kind in [6, 7, 8, 9, 10, 12, 13, 25, 26, 27, 28] {
        faulty.extend([(kind, 0, 1), (kind, 1, 0), (kind, 1, 1)]);
    }
    for kind in [20, 21, 22, 23] {
        faulty.extend([(kind, 0, 1), (kind, 1, 0), (kind, 0, 0)]);
    }
    faulty.extend([(15, 1, 0), (15, 0, 1), (16, 0, 0), (16, 1, 1)]);
    faulty.extend([(17, 0, 1), (29, 0, 0), (30, 0, 0)]);
    for (kind, x, y) in faulty {
        let mut rows = declared.to_vec();
        rows.push(row(b"ND", kind, x, y));
        assert_check(calls, &rows, 5, 10);
    }
}

fn elements_and_constraints_of_the_wrong_type(calls: &dyn Calls) {
    assert_check(calls, &[INTEGER_NODE, CONSTRAINT], 5, 2);
    assert_check(
        calls,
        &[INTEGER_VARIABLE, BOOL_ARRAY, row(b"EL", 1, 0, 0)],
        5,
        3,
    );
    assert_check(
        calls,
        &[BOOL_VARIABLE, INTEGER_ARRAY, row(b"EL", 1, 0, 0)],
        5,
        3,
    );
}

fn a_missing_name_comes_before_a_wrong_type(calls: &dyn Calls) {
    assert_check(calls, &[BOOL_NODE, row(b"ND", 6, 0, 9)], 4, 2);
    assert_check(calls, &[BOOL_NODE, row(b"ND", 6, 9, 0)], 4, 2);
    let rows = [BOOL_ARRAY, ELEMENT, INTEGER_NODE, row(b"ND", 15, 0, 9)];
    assert_check(calls, &rows, 4, 4);
}

fn free_slots(calls: &dyn Calls) {
    let open = Table::new().slot(0, 1).slot(0, 1).nodes(&[
        Node::slot(0),
        Node::slot(1),
        Node::equal(0, 1),
        Node::exists(0, 2),
        Node::forall(1, 3),
        Node::exists(0, 4),
        Node::and(4, 2),
        Node::truth(1),
        Node::implies(7, 3),
    ]);
    let expected = [(2, 6), (3, 6), (4, 0), (5, 0), (6, 6), (7, 0), (8, 6)];
    for (node, number) in expected {
        let table = open.clone().constraint(7).constraint(node).bytes();
        let record = if number == 0 { 0 } else { 13 };
        assert_eq!(calls.checked(&table), (number, record), "node {node}");
    }
}

fn a_sum_binds_its_slot(calls: &dyn Calls) {
    let table = Table::new().slot(0, 1).nodes(&[
        Node::slot(0),
        Node::sum(0, 0),
        Node::equal(1, 1),
        Node::equal(1, 0),
    ]);
    assert_eq!(calls.checked(&table.clone().constraint(2).bytes()), (0, 0));
    assert_eq!(calls.checked(&table.constraint(3).bytes()), (6, 6));
}

fn a_free_slot_under_another_binder_stays_free(calls: &dyn Calls) {
    let table = Table::new().slot(0, 1).slot(2, 1).nodes(&[
        Node::slot(0),
        Node::equal(0, 0),
        Node::forall(1, 1),
        Node::not(2),
    ]);
    assert_eq!(calls.checked(&table.constraint(3).bytes()), (6, 7));
}

fn types_come_before_free_slots(calls: &dyn Calls) {
    let table = Table::new().slot(0, 1).node(Node::slot(0)).constraint(0);
    assert_eq!(calls.checked(&table.bytes()), (5, 3));
}

fn damaged_tables_are_refused_as_foreseen(calls: &dyn Calls) {
    let mut random = Random::new(11);
    let mut seen = [0u32; 7];
    let plan = Plan {
        wild: 5,
        ..Plan::SMALL
    };
    for _ in 0..rounds(20_000) {
        let table = random::table(&mut random, &plan);
        assert_eq!(
            calls.checked(&table.bytes()),
            (0, 0),
            "\n{}",
            pretty(&table.bytes())
        );
        let found = damaged(&mut random, &table);
        let expected = (found.number, found.record);
        let text = || pretty(&found.bytes);
        assert_eq!(calls.checked(&found.bytes), expected, "\n{}", text());
        seen[found.number as usize] += 1;
    }
    for (number, &count) in seen.iter().enumerate().skip(1) {
        assert!(count > 1_000, "number {number} came up {count} times");
    }
}

fn each_fault_can_be_asked_for(calls: &dyn Calls) {
    let mut random = Random::new(12);
    for number in 1..=6 {
        let found = with_fault(&mut random, &trials::p2(), number).expect("P2 has a place");
        assert_eq!(calls.checked(&found.bytes), (number, found.record));
    }
}

/// The three functions refuse a faulty table alike, and touch no lent byte.
fn refused_alike(calls: &dyn Calls, table: &[u8]) -> Result<(), String> {
    let answer = calls.check(table);
    let expected = refused(answer.number, answer.record);
    ensure!(answer == expected, "{answer:?}");
    if answer.number == 0 {
        return Ok(());
    }
    let mut verdicts = [9; 40];
    let mut out = [9; 400];
    for choice in [1, 2, 3, 0, 4, 257] {
        let expected = match choice {
            1..=3 => expected,
            _ => refused(7, 0),
        };
        let evaluated = calls.evaluate(choice, table, &[], 0, &mut verdicts);
        ensure!(evaluated == expected, "evaluate {choice}: {evaluated:?}");
        let translated = calls.translate(choice, table, &mut out);
        ensure!(translated == expected, "translate {choice}: {translated:?}");
    }
    let touched = verdicts.iter().chain(&out).any(|&byte| byte != 9);
    ensure!(!touched, "a lent byte is changed");
    Ok(())
}

/// Fails with the shortest table that is not refused alike.
fn assert_refused_alike(calls: &dyn Calls, table: &[u8]) {
    if refused_alike(calls, table).is_err() {
        let short = damage::shrink(table, &mut |table| refused_alike(calls, table).is_err());
        panic!("{:?}\n{}", refused_alike(calls, &short), pretty(&short));
    }
}

fn scrambled_tables_are_refused_alike(calls: &dyn Calls) {
    let mut random = Random::new(13);
    let mut seen = [0u32; 7];
    for _ in 0..rounds(30_000) {
        let table = random::table(&mut random, &Plan::SMALL);
        let bytes = damage::scrambled(&mut random, &table);
        seen[calls.check(&bytes).number as usize] += 1;
        assert_refused_alike(calls, &bytes);
    }
    // Number 6 is rare here. The damaged tables have it often.
    assert!(seen[..6].iter().all(|&count| count > 100), "{seen:?}");
}

fn arbitrary_bytes_are_refused_alike(calls: &dyn Calls) {
    let mut random = Random::new(14);
    for _ in 0..rounds(2_000) {
        let length = 12 * random.below(8) + random.pick(&[0, 0, 0, 5]);
        let bytes: Vec<u8> = (0..length).map(|_| random.bits() as u8).collect();
        assert_ne!(calls.check(&bytes).number, 0);
        assert_refused_alike(calls, &bytes);
    }
}

fn variables_as_elements_of_their_type(calls: &dyn Calls) {
    let table = Table::new()
        .bool_variable()
        .variable(0, 1)
        .array(Type::Bool, 0, &[Element::Variable(0)])
        .array(Type::Integer, 0, &[Element::Variable(1)]);
    assert_eq!(calls.checked(&table.bytes()), (0, 0));
}
