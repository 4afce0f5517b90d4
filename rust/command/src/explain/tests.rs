//! The explanation of every number, on the smallest tables.

use super::{explain, Call};
use barfigol::{Choice, Refusal};
use barfigol_format::{bytes_of, pretty, Node, Row, Table};
use barfigol_tables::{limits, trials};

const fn row(mark: &[u8; 2], kind: u8, x: i32, y: i32) -> Row {
    Row::new(mark, kind, x, y)
}

/// A head that counts right, and some rows.
fn with_head(rows: &[Row]) -> Vec<u8> {
    let mut all = vec![Row::head(rows.len() as i32 + 1)];
    all.extend_from_slice(rows);
    bytes_of(&all)
}

/// The refusal of a call.
fn refusal(call: Call, table: &[u8]) -> Option<Refusal> {
    match call {
        Call::Check => barfigol::check(table).err(),
        Call::Translate { choice } => barfigol::translate(Choice(choice), table).err(),
        Call::Evaluate {
            choice,
            assignment,
            budget,
        } => barfigol::evaluate(Choice(choice), table, assignment, budget).err(),
    }
}

/// Says what the first line of the explanation is.
fn assert_first_line(call: Call, table: &[u8], expected: &str) {
    let refusal = refusal(call, table).expect("a refusal");
    let text = explain(call, table, &refusal);
    let first = text.lines().next();
    assert_eq!(first, Some(expected), "\n{}", pretty(table));
}

/// Says how the check's refusal of some rows after a right head is explained.
fn assert_check(rows: &[Row], expected: &str) {
    assert_first_line(Call::Check, &with_head(rows), expected);
}

const INTEGER: Row = row(b"ND", 1, 0, 0);
const TRUTH: Row = row(b"ND", 2, 1, 0);

#[test]
fn all_lines_of_an_explanation() {
    let mut rows = vec![row(b"VR", 1, 0, 1); 7];
    rows.resize(16, INTEGER);
    rows.push(row(b"ND", 9, 3, 12));
    let table = with_head(&rows);
    let refusal = barfigol::check(&table).expect_err("a refusal");
    let expected = "refused 4 at record 17 (ND 9, node 9): y = 12 names no earlier node\n  \
                    record 17: ND 9 0 3 12\n  \
                    number 4: a number names nothing, or no earlier node\n";
    assert_eq!(explain(Call::Check, &table, &refusal), expected);
}

#[test]
fn a_refusal_of_the_call_names_no_record() {
    let table = trials::p4().bytes();
    let call = Call::Translate { choice: 9 };
    let refusal = refusal(call, &table).expect("a refusal");
    let expected = "refused 7: 9 is no reading: 1 strict, 2 kleene, 3 relational\n  \
                    number 7: the choice is not 1 to 3\n";
    assert_eq!(explain(call, &table, &refusal), expected);
}

#[test]
fn number_1() {
    let lengths = [
        (0, "refused 1: 0 bytes of table, fewer than 12"),
        (1, "refused 1: 1 byte of table, fewer than 12"),
        (13, "refused 1: 13 bytes of table, no multiple of 12"),
        (60_001, "refused 1: more than 60000 bytes of table"),
    ];
    for (length, expected) in lengths {
        assert_first_line(Call::Check, &vec![0; length], expected);
    }
}

#[test]
fn number_2() {
    let slot = row(b"SL", 0, 0, 1);
    let array = row(b"AR", 1, 0, 2);
    let element = row(b"EL", 0, 5, 0);
    let head = "refused 2 at record 0 (CN 0, constraint 0): \
                the mark is CN, and the first record is HD";
    assert_first_line(Call::Check, &bytes_of(&[row(b"CN", 0, 0, 0)]), head);
    let cases: [(&[Row], &str); 8] = [
        (&[row(&[0, 88], 0, 0, 0)], "1 (\\x00X 0): \\x00X is no mark"),
        (&[Row::head(2)], "1 (HD 1): only the first record is HD"),
        (&[element], "1 (EL 0): no array lacks an element here"),
        (
            &[array, element, TRUTH],
            "3 (ND 2, node 0): array 0 has 1 of its 2 elements before it",
        ),
        (
            &[array, element, slot],
            "3 (SL 0, slot 0): array 0 has 1 of its 2 elements before it",
        ),
        (
            &[array, element],
            "3 (the end of the table): array 0 has 1 of its 2 elements before it",
        ),
        (
            &[slot, row(b"VR", 1, 0, 1)],
            "2 (VR 1, variable 0): VR stands after SL, and the order is HD VR SL AR (EL) ND CN",
        ),
        (
            &[array, element, element, slot],
            "4 (SL 0, slot 0): SL stands after EL, and the order is HD VR SL AR (EL) ND CN",
        ),
    ];
    for (rows, expected) in cases {
        assert_check(rows, &format!("refused 2 at record {expected}"));
    }
}

#[test]
fn number_3_in_the_head() {
    let head = row(b"HD", 2, 7, 1);
    let expected = "refused 3 at record 0 (HD 2): kind = 2 is not 1; \
                    x = 7 is not the number of records, 1; y = 1 is not 0";
    assert_first_line(Call::Check, &bytes_of(&[head]), expected);
}

/// Says how a faulty record right after the head is explained.
fn assert_declaration(row: Row, title: &str, fault: &str) {
    assert_check(&[row], &format!("refused 3 at record 1 ({title}): {fault}"));
}

#[test]
fn number_3_in_variables() {
    let fault = "x = 5 is above y = 4";
    assert_declaration(row(b"VR", 1, 5, 4), "VR 1, variable 0", fault);
    let fault = "x = 1 is not 0, the least bool";
    assert_declaration(row(b"VR", 0, 1, 1), "VR 0, variable 0", fault);
    let fault = "y = 2 is not 1, the greatest bool";
    assert_declaration(row(b"VR", 0, 0, 2), "VR 0, variable 0", fault);
    let fault = "kind = 2 is neither 0 (bool) nor 1 (integer)";
    assert_declaration(row(b"VR", 2, 0, 1), "VR 2, variable 0", fault);
}

#[test]
fn number_3_in_slots() {
    assert_declaration(row(b"SL", 1, 0, 1), "SL 1, slot 0", "kind = 1 is not 0");
    let fault = "x = 1000000001 is beyond ±1000000000";
    assert_declaration(row(b"SL", 0, 1_000_000_001, 0), "SL 0, slot 0", fault);
    let fault = "y = -1000000001 is beyond ±1000000000";
    assert_declaration(row(b"SL", 0, 0, -1_000_000_001), "SL 0, slot 0", fault);
    let fault = "from x = 1 to y = 10001 are 10001 values, more than 10000";
    assert_declaration(row(b"SL", 0, 1, 10_001), "SL 0, slot 0", fault);
}

#[test]
fn number_3_in_arrays() {
    let fault = "kind = 3 is neither 0 (bool) nor 1 (integer)";
    assert_declaration(row(b"AR", 3, 0, 1), "AR 3, array 0", fault);
    let fault = "x = 1000000001 is beyond ±1000000000";
    assert_declaration(row(b"AR", 1, 1_000_000_001, 1), "AR 1, array 0", fault);
    let fault = "y = 1025 is no count of elements from 1 to 1024";
    assert_declaration(row(b"AR", 1, 0, 1_025), "AR 1, array 0", fault);
}

#[test]
fn number_3_for_one_too_many() {
    let cases = [
        (
            limits::variables(257),
            257,
            "VR 1, variable 256",
            "256 variables",
        ),
        (limits::slots(17), 17, "SL 0, slot 16", "16 slots"),
        (limits::arrays(65), 129, "AR 1, array 64", "64 arrays"),
    ];
    for (table, record, title, most) in cases {
        let expected = format!(
            "refused 3 at record {record} ({title}): \
             there are {most} before it, and no more are allowed"
        );
        assert_first_line(Call::Check, &table.bytes(), &expected);
    }
}

#[test]
fn number_3_in_elements_nodes_and_constraints() {
    let bools = row(b"AR", 0, 0, 1);
    let aux = Row { aux: 7, ..TRUTH };
    let cases: [(&[Row], &str); 8] = [
        (
            &[bools, row(b"EL", 2, 0, 0)],
            "2 (EL 2, element 0 of array 0): kind = 2 is neither 0 (constant) nor 1 (variable)",
        ),
        (
            &[bools, row(b"EL", 0, 2, 0)],
            "2 (EL 0, element 0 of array 0): x = 2 is neither 0 (false) nor 1 (true)",
        ),
        (
            &[bools, row(b"EL", 1, 9, 4)],
            "2 (EL 1, element 0 of array 0): y = 4 is not 0",
        ),
        (
            &[row(b"ND", 18, 0, 0)],
            "1 (ND 18, node 0): kind = 18 does not exist",
        ),
        (
            &[row(b"ND", 2, -1, 3)],
            "1 (ND 2, node 0): x = -1 is neither 0 (false) nor 1 (true); y = 3 is not 0",
        ),
        (&[row(b"ND", 24, 5, 1)], "1 (ND 24, node 0): y = 1 is not 0"),
        (&[aux], "1 (ND 2, node 0): aux = 7 is not 0"),
        (
            &[TRUTH, row(b"CN", 1, 0, 2)],
            "2 (CN 1, constraint 0): kind = 1 is not 0; y = 2 is not 0",
        ),
    ];
    for (rows, expected) in cases {
        assert_check(rows, &format!("refused 3 at record {expected}"));
    }
}

#[test]
fn number_4_of_declarations() {
    let variable = row(b"VR", 1, 0, 1);
    let array = row(b"AR", 1, 0, 1);
    let cases: [(&[Row], &str); 4] = [
        (
            &[row(b"ND", 3, 0, 0)],
            "1 (ND 3, node 0): x = 0 names no variable (there is none)",
        ),
        (
            &[variable, row(b"ND", 3, 1, 0)],
            "2 (ND 3, node 0): x = 1 names no variable (there is one, number 0)",
        ),
        (
            &[variable, variable, array, row(b"EL", 1, 2, 0)],
            "4 (EL 1, element 0 of array 0): x = 2 names no variable (there are 2, from 0 to 1)",
        ),
        (
            &[row(b"ND", 5, -1, 0)],
            "1 (ND 5, node 0): x = -1 names no slot (there is none)",
        ),
    ];
    for (rows, expected) in cases {
        assert_check(rows, &format!("refused 4 at record {expected}"));
    }
}

#[test]
fn number_4_of_nodes() {
    let array = row(b"AR", 1, 0, 1);
    let element = row(b"EL", 0, 5, 0);
    let cases: [(&[Row], &str); 4] = [
        (
            &[array, element, INTEGER, row(b"ND", 15, 1, 1)],
            "4 (ND 15, node 1): x = 1 names no array (there is one, number 0); \
             y = 1 names no earlier node",
        ),
        (
            &[TRUTH, row(b"ND", 24, 1, 0)],
            "2 (ND 24, node 1): x = 1 names no earlier node",
        ),
        (
            &[TRUTH, row(b"ND", 6, 0, 9)],
            "2 (ND 6, node 1): y = 9 names no earlier node",
        ),
        (
            &[TRUTH, row(b"CN", 0, 1, 0)],
            "2 (CN 0, constraint 0): x = 1 names no node (there is one, number 0)",
        ),
    ];
    for (rows, expected) in cases {
        assert_check(rows, &format!("refused 4 at record {expected}"));
    }
}

#[test]
fn number_5() {
    let cases: [(&[Row], &str); 5] = [
        (
            &[INTEGER, TRUTH, row(b"ND", 9, 0, 1)],
            "3 (ND 9, node 2): y = 1 names a Boolean node, and kind 9 takes an integer one",
        ),
        (
            &[row(b"VR", 0, 0, 1), row(b"ND", 3, 0, 0)],
            "2 (ND 3, node 0): x = 0 names a Boolean variable, and kind 3 takes an integer one",
        ),
        (
            &[row(b"AR", 1, 0, 1), row(b"EL", 0, 5, 0), INTEGER, row(b"ND", 16, 0, 0)],
            "4 (ND 16, node 1): x = 0 names an integer array, and kind 16 takes a Boolean one",
        ),
        (
            &[row(b"VR", 1, 0, 1), row(b"AR", 0, 0, 1), row(b"EL", 1, 0, 0)],
            "3 (EL 1, element 0 of array 0): \
             x = 0 names an integer variable, and its array takes a Boolean one",
        ),
        (
            &[INTEGER, row(b"CN", 0, 0, 0)],
            "2 (CN 0, constraint 0): x = 0 names an integer node, and a constraint takes a Boolean one",
        ),
    ];
    for (rows, expected) in cases {
        assert_check(rows, &format!("refused 5 at record {expected}"));
    }
}

#[test]
fn number_6() {
    let open = Table::new().slot(0, 1).slot(0, 1).nodes(&[
        Node::slot(0),
        Node::slot(1),
        Node::equal(0, 1),
        Node::exists(1, 2),
    ]);
    let both = open.clone().constraint(2).bytes();
    let expected = "refused 6 at record 7 (CN 0, constraint 0): slots 0, 1 are free in node 2";
    assert_first_line(Call::Check, &both, expected);
    let one = open.constraint(3).bytes();
    let expected = "refused 6 at record 7 (CN 0, constraint 0): slot 0 is free in node 3";
    assert_first_line(Call::Check, &one, expected);
}

/// A call of evaluation.
fn at(choice: u32, assignment: &[i32], budget: u32) -> Call<'_> {
    Call::Evaluate {
        choice,
        assignment,
        budget,
    }
}

#[test]
fn number_7() {
    let table = trials::p4().bytes();
    let expected = "refused 7: 0 is no reading: 1 strict, 2 kleene, 3 relational";
    assert_first_line(at(0, &[0], 9), &table, expected);
    assert_first_line(Call::Translate { choice: 0 }, &table, expected);
}

#[test]
fn number_8() {
    let table = Table::new()
        .variable(0, 100_000)
        .node(Node::variable(0))
        .node(Node::multiply(0, 0))
        .node(Node::equal(1, 1))
        .constraint(2)
        .bytes();
    let expected = "refused 8 at record 3 (ND 8, node 1): \
                    its values lie in 0..10000000000, beyond ±2000000000";
    assert_first_line(Call::Translate { choice: 2 }, &table, expected);
    let expected = "refused 8: a value is beyond ±2000000000; \
                    the first node that can pass the limit is node 1 (record 3)";
    assert_first_line(at(2, &[100_000], 9), &table, expected);
    let table = Table::new()
        .variable(0, 10)
        .node(Node::variable(0))
        .node(Node::constant(2_000_000_000))
        .node(Node::modulo(0, 1))
        .node(Node::constant(2))
        .node(Node::subtract(2, 3))
        .bytes();
    let expected = "refused 8 at record 6 (ND 7, node 4): \
                    its values lie in -2000000001..1999999997, beyond ±2000000000";
    assert_first_line(Call::Translate { choice: 1 }, &table, expected);
}

#[test]
fn number_9() {
    let table = limits::records(5_000).bytes();
    let expected = "refused 9: the translation is longer than 60000 bytes";
    assert_first_line(Call::Translate { choice: 1 }, &table, expected);
}

#[test]
fn number_10() {
    let table = trials::p4().bytes();
    let expected = "refused 10: 0 values given for 1 variable";
    assert_first_line(at(1, &[], 9), &table, expected);
    let expected = "refused 10: 2 values given for 1 variable";
    assert_first_line(at(1, &[0, 5], 9), &table, expected);
    let expected = "refused 10 at record 1 (VR 1, variable 0): \
                    value 2 is outside the domain 0..1";
    assert_first_line(at(1, &[2], 9), &table, expected);
}

#[test]
fn number_11() {
    let table = trials::p4().bytes();
    let expected = "refused 11: 6 steps needed, the budget is 5";
    assert_first_line(at(1, &[0], 5), &table, expected);
    let table = limits::doubling(200).bytes();
    let expected = "refused 11: more than 18446744073709551615 steps needed, the budget is 7";
    assert_first_line(at(1, &[], 7), &table, expected);
}

#[test]
fn a_number_that_does_not_fit_has_its_sentence() {
    let table = trials::p4().bytes();
    for number in 1..=11 {
        let records = [0, 1, 3, 7, 8, 9, u32::MAX];
        for refusal in records
            .iter()
            .filter_map(|&record| Refusal::new(number, record))
        {
            let sentence = format!("number {number}: {}\n", refusal.reason());
            for call in [Call::Check, Call::Translate { choice: 1 }, at(1, &[0], 9)] {
                let text = explain(call, &table, &refusal);
                assert!(text.ends_with(&sentence), "{text}");
            }
        }
    }
}
