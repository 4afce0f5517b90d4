//! `readings`: where the three readings part.

mod common;

use barfigol::Reading;
use barfigol_tables::random::{self, Plan};
use barfigol_tables::{limits, placement::placement, Node, Random, Table};
use common::INPUT;
use common::{assert_answer, assert_done, assert_no, assert_refused, example, run, run_with};

#[test]
fn the_placement_model() {
    let expected = "\
at 0 2: constraint 1: strict undefined, kleene undefined, relational true
at 1 2: constraint 1: strict undefined, kleene undefined, relational true
at 2 0: constraint 0: strict undefined, kleene true, relational true
at 2 1: constraint 0: strict undefined, kleene true, relational true
at 2 2: constraint 0: strict undefined, kleene true, relational true
at 2 2: constraint 1: strict undefined, kleene undefined, relational true
looked at 9 of 9 assignments
constraint 0 (record 26): the readings part at 3 assignments
constraint 1 (record 27): the readings part at 3 assignments
the readings part at 5 assignments
";
    assert_no(&run(&["readings", &example("placement.table")]), expected);
    let ran = run_with(&["readings", "-", "-q"], &placement().bytes());
    assert_no(&ran, "");
}

#[test]
fn readings_that_agree() {
    for name in ["p5.table", "p6.table", "p7.table", "p8.table"] {
        let one = "looked at 1 of 1 assignment\nthe readings part nowhere\n";
        assert_done(&run(&["readings", &example(name)]), one);
    }
    let ran = run_with(&["readings", "-"], &Table::new().variable(0, 9).bytes());
    assert_done(&ran, "there is no constraint\nthe readings part nowhere\n");
}

#[test]
fn a_table_without_variables() {
    let table = Table::new()
        .nodes(&[Node::constant(0), Node::div(0, 0), Node::equal(1, 0)])
        .constraint(2)
        .bytes();
    let expected = "\
at no values: constraint 0: strict undefined, kleene undefined, relational false
looked at 1 of 1 assignment
constraint 0 (record 4): the readings part at 1 assignment
the readings part at 1 assignment
";
    assert_no(&run_with(&["readings", "-"], &table), expected);
}

/// P4 takes 18 steps at an assignment: 6 under each reading.
#[test]
fn the_budget_cuts_the_look_off() {
    let p4 = &example("p4.table");
    let budget = |steps: &str| run(&["readings", p4, "--budget", steps]);
    assert_eq!(budget("36"), run(&["readings", p4]));
    let at_0 = "at 0: constraint 0: strict undefined, kleene undefined, relational true\n";
    let cut = |steps: u32| {
        format!(
            "{at_0}looked at 1 of 2 assignments: cut off, one takes 18 steps and the budget is {steps}\n\
             constraint 0 (record 7): the readings part at 1 assignment\n\
             the readings part at 1 assignment\n"
        )
    };
    assert_no(&budget("35"), &cut(35));
    assert_no(&budget("18"), &cut(18));
    let none = "looked at 0 of 2 assignments: cut off, one takes 18 steps and the budget is 17\n\
                the readings part at no assignment looked at\n";
    assert_answer(&budget("17"), 4, none);
    assert_answer(&run(&["readings", "-q", p4, "--budget=0"]), 4, "");
}

/// Domains as wide as they get, and as many.
#[test]
fn huge_domains() {
    let whole = (0..256).fold(Table::new(), |table, _| table.variable(i32::MIN, i32::MAX));
    let table = whole.node(Node::truth(1)).constraint(0).bytes();
    let ran = run_with(&["readings", "-", "--budget", "3000"], &table);
    let expected = "looked at 1000 of more than 2^128 assignments: \
                    cut off, one takes 3 steps and the budget is 3000\n\
                    the readings part at no assignment looked at\n";
    assert_answer(&ran, 4, expected);
    let one = Table::new().variable(i32::MIN, i32::MAX);
    let table = one.node(Node::truth(1)).constraint(0).bytes();
    let ran = run_with(&["readings", "-", "--budget=3"], &table);
    assert!(
        ran.out
            .starts_with("looked at 1 of 4294967296 assignments: cut off"),
        "{ran:?}"
    );
}

/// More steps than any budget, and more than 128 bits.
#[test]
fn huge_costs() {
    for depth in [32, 140] {
        let table = limits::doubling(depth).bytes();
        let ran = run_with(&["readings", "-", "--budget", "4294967295"], &table);
        assert_eq!((ran.status, ran.err.as_str()), (Some(4), ""));
        assert!(
            ran.out.starts_with("looked at 0 of 1 assignment: cut off"),
            "{ran:?}"
        );
    }
}

#[test]
fn number_8_is_reported() {
    let beyond = Table::new()
        .variable(1_999_999_999, 2_000_000_001)
        .nodes(&[Node::variable(0), Node::equal(0, 0)])
        .constraint(1)
        .bytes();
    let expected = "\
at 2000000001: refused 8 under each reading
looked at 3 of 3 assignments
strict: refused 8 at 1 assignment
kleene: refused 8 at 1 assignment
relational: refused 8 at 1 assignment
the readings part nowhere
";
    assert_done(&run_with(&["readings", "-"], &beyond), expected);
}

/// Under relational ¬(1 div 0 = 1) is true, so that its number is 1 and a sum
/// with it is beyond the limit; under the others it is undefined and no value.
#[test]
fn number_8_under_one_reading() {
    let table = Table::new()
        .variable(0, 1)
        .nodes(&[
            Node::variable(0),
            Node::constant(1),
            Node::div(1, 0),
            Node::equal(2, 1),
            Node::not(3),
            Node::bool_to_int(4),
            Node::constant(2_000_000_000),
            Node::add(5, 6),
            Node::at_most(0, 7),
            Node::truth(1),
        ])
        .constraint(8)
        .constraint(9)
        .bytes();
    let expected = "\
at 0: constraint 0: strict undefined, kleene undefined, relational refused 8
at 0: constraint 1: strict true, kleene true, relational refused 8
looked at 2 of 2 assignments
constraint 0 (record 12): the readings part at 1 assignment
constraint 1 (record 13): the readings part at 1 assignment
relational: refused 8 at 1 assignment
the readings part at 1 assignment
";
    assert_no(&run_with(&["readings", "-"], &table), expected);
}

#[test]
fn tables_that_are_refused() {
    let faulty = &example("faulty.table");
    let fault = "refused 4 at record 4 (ND 9, node 2): y = 12 names no earlier node";
    assert_refused(&run(&["readings", faulty]), faulty, "", fault);
    let one = "refused 1: 0 bytes of table, fewer than 12";
    assert_refused(&run_with(&["readings", "-"], &[]), INPUT, "", one);
}

/// The lines for one assignment, from the library's answers one by one.
fn lines_at(table: &[u8], values: &[i32]) -> String {
    let answers = Reading::ALL.map(|reading| {
        let found = barfigol::evaluate(reading, table, values, u32::MAX);
        found.expect("small numbers").verdicts
    });
    let shown: Vec<String> = values.iter().map(ToString::to_string).collect();
    let shown = match shown.as_slice() {
        [] => String::from("no values"),
        values => values.join(" "),
    };
    let [strict, kleene, relational] = answers;
    let constraints = 0..strict.len();
    let parting = constraints.filter(|&n| strict[n] != kleene[n] || kleene[n] != relational[n]);
    let lines = parting.map(|n| {
        let (one, two, three) = (strict[n], kleene[n], relational[n]);
        format!("at {shown}: constraint {n}: strict {one}, kleene {two}, relational {three}\n")
    });
    lines.collect()
}

/// On random tables the lines are exactly where the library's answers differ.
#[test]
fn random_tables() {
    let mut random = Random::new(7);
    let mut statuses = [0; 5];
    for _ in 0..150 {
        let table = random::table(&mut random, &Plan::SMALL);
        let bytes = table.bytes();
        let lines = table.assignments().map(|values| lines_at(&bytes, &values));
        let expected: String = lines.collect();
        let ran = run_with(&["readings", "-", "--budget", "4294967295"], &bytes);
        let lines = ran.out.lines().filter(|line| line.starts_with("at "));
        let lines: String = lines.map(|line| format!("{line}\n")).collect();
        assert_eq!(lines, expected);
        let status = if expected.is_empty() { 0 } else { 3 };
        assert_eq!(ran.status, Some(status), "{ran:?}");
        statuses[status as usize] += 1;
        let size = table.assignments().count();
        assert!(
            ran.out.contains(&format!("looked at {size} of {size} "))
                || table.constraints.is_empty()
        );
    }
    assert!(statuses[0] > 9 && statuses[3] > 9, "{statuses:?}");
}
