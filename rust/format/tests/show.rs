//! What is shown of each record, and how faults are marked.

use barfigol_format::{assemble, bytes_of, show, title, Element, Node, Row, Table, Type};

/// The notes of each line: what stands behind the record.
fn notes(bytes: &[u8]) -> Vec<String> {
    let note = |line: &str| {
        let (_, note) = line.split_once("  ").unwrap_or((line, ""));
        note.trim_start().to_string()
    };
    show(bytes).lines().map(note).collect()
}

/// A head that counts right, and some rows.
fn with_head(rows: &[Row]) -> Vec<u8> {
    let mut all = vec![Row::head(rows.len() as i32 + 1)];
    all.extend_from_slice(rows);
    bytes_of(&all)
}

const fn row(mark: &[u8; 2], kind: u8, x: i32, y: i32) -> Row {
    Row::new(mark, kind, x, y)
}

#[test]
fn declarations() {
    let bools = [Element::Constant(1), Element::Variable(1)];
    let table = Table::new()
        .variable(-5, 5)
        .bool_variable()
        .slot(1, 3)
        .slot(1, 0)
        .constants(1, &[16, 32])
        .array(Type::Bool, -1, &bools)
        .array(Type::Integer, 0, &[Element::Variable(0)]);
    let expected = [
        "head: 13 records",
        "variable 0: -5..5",
        "variable 1: bool",
        "slot 0: 1..3",
        "slot 1: 1..0, empty",
        "array 0: 2 integers from index 1",
        "array 0 at index 1: 16",
        "array 0 at index 2: 32",
        "array 1: 2 bools from index -1",
        "array 1 at index -1: true",
        "array 1 at index 0: variable 1",
        "array 2: 1 integer from index 0",
        "array 2 at index 0: variable 0",
    ];
    assert_eq!(notes(&table.bytes()), expected);
}

/// A node of every kind, with its form.
const NODES: [(Node, &str); 28] = [
    (Node::constant(-7), "-7"),
    (Node::truth(0), "false"),
    (Node::variable(0), "variable 0"),
    (Node::bool_variable(1), "variable 1"),
    (Node::slot(0), "slot 0"),
    (Node::add(0, 2), "node 0 + node 2"),
    (Node::subtract(0, 2), "node 0 - node 2"),
    (Node::multiply(0, 2), "node 0 * node 2"),
    (Node::div(5, 2), "node 5 div node 2"),
    (Node::modulo(5, 2), "node 5 mod node 2"),
    (Node::negate(5), "minus node 5"),
    (Node::min(5, 2), "min(node 5, node 2)"),
    (Node::max(5, 2), "max(node 5, node 2)"),
    (Node::bool_to_int(1), "boolToInt(node 1)"),
    (Node::lookup(0, 2), "array 0 at node 2"),
    (Node::bool_lookup(1, 2), "array 1 at node 2"),
    (Node::sum(0, 4), "sum over slot 0 of node 4"),
    (Node::and(1, 3), "node 1 and node 3"),
    (Node::or(1, 3), "node 1 or node 3"),
    (Node::implies(1, 3), "node 1 implies node 3"),
    (Node::iff(1, 3), "node 1 iff node 3"),
    (Node::not(1), "not node 1"),
    (Node::equal(0, 4), "node 0 = node 4"),
    (Node::unequal(0, 4), "node 0 != node 4"),
    (Node::at_most(0, 4), "node 0 <= node 4"),
    (Node::below(0, 4), "node 0 < node 4"),
    (Node::exists(0, 22), "exists over slot 0 of node 22"),
    (Node::forall(0, 22), "forall over slot 0 of node 22"),
];

#[test]
fn nodes() {
    let bools = [Element::Constant(1), Element::Constant(0)];
    assert_eq!(NODES.len(), barfigol_format::kinds::KINDS.len());
    let mut table = Table::new()
        .variable(0, 1)
        .bool_variable()
        .slot(0, 1)
        .constants(0, &[4])
        .array(Type::Bool, 0, &bools);
    for (node, _) in NODES {
        table.push(node);
    }
    let table = table.constraint(27);
    let notes = notes(&table.bytes());
    let start = table.first_node_record();
    for (number, (_, form)) in NODES.iter().enumerate() {
        assert_eq!(notes[start + number], format!("node {number}: {form}"));
    }
    assert_eq!(notes[start + NODES.len()], "constraint 0: node 27");
}

#[test]
fn notes_stand_in_one_column() {
    let long = Table::new().variable(-1_000_000, 1_000_000).bytes();
    assert_eq!(
        show(&long),
        "HD 1 0 2 0      head: 2 records\n\
         VR 1 0 -1000000 1000000  variable 0: -1000000..1000000\n"
    );
}

/// What is marked on the lines of some rows behind a right head.
fn assert_marks(rows: &[Row], expected: &[(usize, &str)]) {
    let bytes = with_head(rows);
    let marks: Vec<(usize, String)> = show(&bytes)
        .lines()
        .enumerate()
        .filter_map(|(line, text)| {
            let (_, mark) = text.split_once("! ").or_else(|| text.split_once("# "))?;
            Some((line, mark.to_string()))
        })
        .collect();
    let marks: Vec<(usize, &str)> = marks.iter().map(|(at, mark)| (*at, &**mark)).collect();
    assert_eq!(marks, expected, "\n{}", show(&bytes));
}

const INTEGER: Row = row(b"ND", 1, 5, 0);
const TRUTH: Row = row(b"ND", 2, 1, 0);

#[test]
fn all_faults_are_marked() {
    assert_marks(
        &[
            row(b"VR", 1, 5, 4),
            INTEGER,
            row(b"ND", 9, 0, 7),
            row(b"ND", 24, 9, 1),
            row(b"CN", 0, 0, 0),
        ],
        &[
            (1, "refused 3: x = 5 is above y = 4"),
            (3, "also 4: y = 7 names no earlier node"),
            (
                4,
                "also 3: y = 1 is not 0  ! also 4: x = 9 names no earlier node",
            ),
            (
                5,
                "also 5: x = 0 names an integer node, and a constraint takes a Boolean one",
            ),
        ],
    );
}

#[test]
fn faults_of_one_number_stand_together() {
    assert_marks(
        &[row(b"SL", 1, 1_000_000_001, 0)],
        &[(
            1,
            "refused 3: kind = 1 is not 0; x = 1000000001 is beyond ±1000000000",
        )],
    );
}

/// A faulty node, a variable and an array have no type that could be wrong.
#[test]
fn what_names_a_faulty_record_is_not_marked() {
    assert_marks(
        &[
            row(b"VR", 2, 0, 1),
            row(b"AR", 3, 0, 1),
            row(b"EL", 1, 0, 0),
            row(b"ND", 4, 0, 0),
            row(b"ND", 18, 0, 0),
            row(b"ND", 16, 0, 1),
            row(b"ND", 20, 0, 1),
            row(b"CN", 0, 1, 0),
        ],
        &[
            (1, "refused 3: kind = 2 is neither 0 (bool) nor 1 (integer)"),
            (2, "also 3: kind = 3 is neither 0 (bool) nor 1 (integer)"),
            (5, "also 3: kind = 18 does not exist"),
        ],
    );
}

#[test]
fn a_record_out_of_place_puts_numbers_in_doubt() {
    // With a node in place of the second record, nothing else would be wrong.
    assert_marks(
        &[
            INTEGER,
            row(&[0, b'D'], 2, 1, 0),
            row(b"ND", 24, 1, 0),
            row(b"ND", 2, 7, 0),
            row(b"CN", 0, 2, 0),
        ],
        &[
            (2, "refused 2: \\x00D is no mark"),
            (4, "also 3: x = 7 is neither 0 (false) nor 1 (true)"),
        ],
    );
}

#[test]
fn sections_out_of_order_are_marked_once() {
    let variable = row(b"VR", 1, 0, 1);
    assert_marks(
        &[TRUTH, row(b"CN", 0, 0, 0), variable, variable, TRUTH],
        &[(
            3,
            "refused 2: VR stands after CN, and the order is HD VR SL AR (EL) ND CN",
        )],
    );
    let element = row(b"EL", 0, 0, 0);
    assert_marks(
        &[element, element, variable],
        &[(1, "refused 2: no array lacks an element here")],
    );
}

#[test]
fn missing_elements() {
    let array = row(b"AR", 1, 0, 3);
    let element = row(b"EL", 0, 5, 0);
    let fault = "array 0 has 1 of its 3 elements before it";
    assert_marks(
        &[array, element, TRUTH],
        &[(3, &format!("refused 2: {fault}"))],
    );
    assert_marks(
        &[array, element],
        &[(3, &format!("the end: refused 2: {fault}"))],
    );
}

#[test]
fn one_too_many_is_marked_once() {
    let slots = vec![row(b"SL", 0, 0, 1); 18];
    let fault = "refused 3: there are 16 slots before it, and no more are allowed";
    assert_marks(&slots, &[(17, fault)]);
}

#[test]
fn lengths() {
    assert_eq!(show(&[]), "# refused 1: 0 bytes of table, fewer than 12\n");
    let table = Table::new().node(Node::truth(2)).bytes();
    assert_eq!(
        show(&table[..23]),
        "# refused 1: 23 bytes of table, no multiple of 12\n\
         HD 1 0 2 0      head: 2 records\n\
         bytes 4e44020002000000000000\n"
    );
    let long = show(&[0; 60_012]);
    assert!(long.starts_with("# refused 1: more than 60000 bytes of table\n"));
    assert_eq!(long.lines().count(), 5_002);
}

#[test]
fn a_sound_table_beyond_the_limit() {
    assert_marks(
        &[row(b"ND", 1, 2_000_000_001, 0)],
        &[(
            1,
            "translate refuses 8: its values lie in 2000000001..2000000001, beyond ±2000000000",
        )],
    );
    assert_marks(&[row(b"ND", 1, 2_000_000_000, 0)], &[]);
}

#[test]
fn heads_out_of_place_mean_nothing() {
    let head = Row::head(3);
    let text = show(&with_head(&[head, TRUTH]));
    let second = "HD 1 0 3 0      ! refused 2: only the first record is HD";
    assert_eq!(text.lines().nth(1), Some(second));
}

/// Every byte of a mark, and every value of the small fields.
#[test]
fn every_mark_is_read_back() {
    for byte in 0..=u8::MAX {
        for mark in [[byte, b'D'], [b'N', byte], [byte, byte]] {
            let row = Row {
                mark,
                kind: byte,
                aux: byte,
                x: i32::MIN,
                y: i32::MAX,
            };
            let bytes = bytes_of(&[row]);
            let text = show(&bytes);
            assert_eq!(assemble(&text).as_deref(), Ok(&bytes[..]), "{text}");
            assert!(text.trim_end().chars().all(|letter| !letter.is_control()));
        }
    }
}

#[test]
fn titles() {
    let table = Table::new().constants(5, &[1]).node(Node::constant(0));
    let bytes = table.bytes();
    let titles: Vec<String> = (0..5).map(|record| title(&bytes, record)).collect();
    assert_eq!(
        titles,
        [
            "HD 1",
            "AR 1, array 0",
            "EL 0, element 0 of array 0",
            "ND 1, node 0",
            "the end of the table"
        ]
    );
}
