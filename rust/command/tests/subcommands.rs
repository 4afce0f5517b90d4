//! Each subcommand: what it prints, and its exit status.

mod common;

use barfigol_tables::examples::faulty;
use barfigol_tables::{limits, pretty, trials, Node, Table};
use common::{assert_done, assert_no, assert_refused, example, file, folder, run, run_with, INPUT};

const FAULT: &str = "refused 4 at record 4 (ND 9, node 2): y = 12 names no earlier node";

#[test]
fn check_of_sound_and_faulty_tables() {
    for number in 1..=8 {
        assert_done(
            &run(&["check", &example(&format!("p{number}.table"))]),
            "sound\n",
        );
    }
    assert_done(&run(&["check", &example("placement.table")]), "sound\n");
    let faulty = &example("faulty.table");
    assert_refused(&run(&["check", faulty]), faulty, "", FAULT);
}

#[test]
fn an_explanation_has_the_record_and_the_sentence() {
    let ran = run_with(&["check", "-"], &faulty().bytes());
    let lines: Vec<&str> = ran.err.lines().collect();
    let record = "  record 4: ND 9 0 0 12";
    let sentence = "  number 4: a number names nothing, or no earlier node";
    assert_eq!(lines, [&format!("{INPUT}: {FAULT}"), record, sentence]);
}

#[test]
fn standard_input_serves_every_subcommand() {
    let table = trials::p4().bytes();
    assert_done(&run_with(&["check", "-"], &table), "sound\n");
    let listed = run(&["list", "strict", &example("p4.table")]);
    assert_done(&run_with(&["list", "strict", "-"], &table), &listed.out);
    let out = folder("input").join("out.table");
    let out = common::text(&out);
    assert_done(&run_with(&["translate", "strict", "-", &out], &table), "");
    assert_eq!(pretty(&std::fs::read(out).expect("a file")), listed.out);
    let verdict = "undefined\nsteps 6\nnot all true\n";
    let ran = run_with(&["evaluate", "strict", "-", "0"], &table);
    assert_no(&ran, verdict);
}

/// Document 01's lines for P4 under the relational reading.
const P4_RELATIONAL: &str = "\
HD 1 0 20 0\nVR 1 0 0 1\nND 1 0 1 0\nND 2 0 1 0\nND 3 0 0 0\nND 2 0 1 0\nND 1 0 0 0
ND 25 0 2 4\nND 14 0 5 0\nND 6 0 2 6\nND 9 0 0 7\nND 20 0 1 3\nND 1 0 0 0\nND 26 0 2 10
ND 20 0 9 11\nND 20 0 12 1\nND 25 0 8 0\nND 20 0 13 14\nND 24 0 15 0\nCN 0 0 16 0
";

#[test]
fn list_prints_the_lines_of_document_01() {
    let path = example("p4.table");
    assert_done(&run(&["list", "relational", &path]), P4_RELATIONAL);
    assert_done(&run(&["list", "3", &path]), P4_RELATIONAL);
}

#[test]
fn list_prints_a_refusal_too() {
    let faulty = faulty().bytes();
    assert_refused(
        &run_with(&["list", "kleene", "-"], &faulty),
        INPUT,
        "refused 4 4\n",
        FAULT,
    );
    // Number 7 comes before everything else.
    let seven = "refused 7: 259 is no reading: 1 strict, 2 kleene, 3 relational";
    assert_refused(
        &run_with(&["list", "259", "-"], &faulty),
        INPUT,
        "refused 7 0\n",
        seven,
    );
    assert_refused(
        &run_with(&["list", "259", "-"], &[]),
        INPUT,
        "refused 7 0\n",
        seven,
    );
    let large = limits::constant(2_000_000_001).bytes();
    let eight = "refused 8 at record 1 (ND 1, node 0): \
                 its values lie in 2000000001..2000000001, beyond ±2000000000";
    assert_refused(
        &run_with(&["list", "1", "-"], &large),
        INPUT,
        "refused 8 1\n",
        eight,
    );
}

#[test]
fn words_and_numbers_of_readings() {
    let path = example("p2.table");
    for (word, number) in [("strict", "1"), ("kleene", "2"), ("relational", "3")] {
        let listed = run(&["list", word, &path]);
        assert_eq!(listed.status, Some(0));
        let capital = word[..1].to_uppercase() + &word[1..];
        for same in [number, &capital, &word.to_uppercase()] {
            assert_eq!(run(&["list", same, &path]), listed);
        }
    }
    for number in ["0", "4", "257", "4294967295"] {
        let seven = format!("refused 7: {number} is no reading: 1 strict, 2 kleene, 3 relational");
        let ran = run(&["evaluate", number, &path, "3"]);
        assert_refused(&ran, &path, "", &seven);
    }
}

#[test]
fn evaluate_prints_verdicts_steps_and_all() {
    let path = example("p4.table");
    let expected = [
        ("strict", "0", "undefined"),
        ("strict", "1", "false"),
        ("kleene", "0", "undefined"),
    ];
    for (reading, value, verdict) in expected {
        let ran = run(&["evaluate", reading, &path, value]);
        assert_no(&ran, &format!("{verdict}\nsteps 6\nnot all true\n"));
    }
    let ran = run(&["evaluate", "relational", &path, "0"]);
    assert_done(&ran, "true\nsteps 6\nall true\n");
    let ran = run(&["evaluate", "kleene", &example("placement.table"), "2", "2"]);
    assert_no(&ran, "true\nundefined\ntrue\nsteps 24\nnot all true\n");
}

#[test]
fn evaluate_without_variables_or_constraints() {
    let ran = run(&["evaluate", "strict", &example("p7.table")]);
    assert_done(&ran, "true\nsteps 5\nall true\n");
    let empty = Table::new().bytes();
    let ran = run_with(&["evaluate", "strict", "-", "--budget", "0"], &empty);
    assert_done(&ran, "steps 0\nall true\n");
}

#[test]
fn evaluate_takes_negative_values() {
    let table = Table::new()
        .variable(i32::MIN, 5)
        .node(Node::truth(1))
        .constraint(0)
        .bytes();
    for value in ["-7", "-2147483648", "5"] {
        let ran = run_with(&["evaluate", "strict", "-", value], &table);
        assert_done(&ran, "true\nsteps 1\nall true\n");
    }
}

#[test]
fn the_budget_is_the_greatest_if_not_given() {
    // Depth 30 takes 2^31 − 1 steps, which are not walked here; depth 31 takes
    // one fewer than 2^32, which is the budget; depth 32 is beyond it.
    let table = limits::doubling(32).bytes();
    let eleven = "refused 11: 8589934591 steps needed, the budget is 4294967295";
    let ran = run_with(&["evaluate", "strict", "-"], &table);
    assert_refused(&ran, INPUT, "", eleven);
}

#[test]
fn refusals_of_an_evaluation() {
    let path = example("p4.table");
    let ten = "refused 10: 2 values given for 1 variable";
    let ran = run(&["evaluate", "strict", &path, "0", "0"]);
    assert_refused(&ran, &path, "", ten);
    let ten = "refused 10 at record 1 (VR 1, variable 0): value -1 is outside the domain 0..1";
    let ran = run(&["evaluate", "strict", &path, "-1"]);
    assert_refused(&ran, &path, "", ten);
    let large = limits::constant(2_000_000_001).bytes();
    let eight = "refused 8: a value is beyond ±2000000000; \
                 the first node that can pass the limit is node 0 (record 1)";
    let ran = run_with(&["evaluate", "2", "-"], &large);
    assert_refused(&ran, INPUT, "", eight);
}

#[test]
fn the_longest_table_passes_and_a_longer_one_is_not_cut() {
    let longest = limits::records(5_000).bytes();
    assert_eq!(longest.len(), 60_000);
    assert_done(&run_with(&["check", "-"], &longest), "sound\n");
    let one = "refused 1: more than 60000 bytes of table";
    for spare in [1, 12, 1_000_000] {
        let mut longer = longest.clone();
        longer.resize(60_000 + spare, 0);
        assert_refused(&run_with(&["check", "-"], &longer), INPUT, "", one);
        let path = file(&folder("longer"), "longer.table", &longer);
        assert_refused(&run(&["check", &path]), &path, "", one);
        let ran = run(&["list", "1", &path]);
        assert_refused(&ran, &path, "refused 1 0\n", one);
    }
}
