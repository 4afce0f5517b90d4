//! `check` of several tables, and what its exit status says.

mod common;

use common::{assert_answer, assert_done, example, folder, run, text};

const FAULT: &str = "refused 4 at record 4 (ND 9, node 2): y = 12 names no earlier node";

#[test]
fn each_table_gets_a_line() {
    let (p4, p5) = (&example("p4.table"), &example("p5.table"));
    let ran = run(&["check", p4, p5, p4]);
    assert_done(&ran, &format!("{p4}: sound\n{p5}: sound\n{p4}: sound\n"));
}

#[test]
fn a_faulty_table_among_others() {
    let (p4, faulty) = (&example("p4.table"), &example("faulty.table"));
    let ran = run(&["check", faulty, p4, faulty]);
    let line = format!("{faulty}: refused 4 4\n");
    assert_eq!(
        (ran.status, ran.out),
        (Some(1), format!("{line}{p4}: sound\n{line}"))
    );
    let faults = ran
        .err
        .lines()
        .filter(|line| *line == format!("{faulty}: {FAULT}"));
    assert_eq!(faults.count(), 2, "{}", ran.err);
}

/// A file that cannot be read does not keep the others from being checked.
#[test]
fn a_missing_table_among_others() {
    let (p4, faulty) = (&example("p4.table"), &example("faulty.table"));
    let missing = &text(&folder("gone").join("missing"));
    let ran = run(&["check", missing, faulty, p4]);
    let lines = format!("{missing}: not read\n{faulty}: refused 4 4\n{p4}: sound\n");
    assert_eq!((ran.status, ran.out), (Some(2), lines));
    let why = format!("barfigol: {missing}: No such file or directory");
    assert_eq!(ran.err.lines().next(), Some(why.as_str()));
}

#[test]
fn standard_input_among_others() {
    let p4 = &example("p4.table");
    let table = std::fs::read(p4).expect("a table");
    let ran = common::run_with(&["check", p4, "-"], &table);
    assert_done(&ran, &format!("{p4}: sound\nstandard input: sound\n"));
}

#[test]
fn quiet_leaves_the_answer_to_the_status() {
    let (p4, faulty) = (&example("p4.table"), &example("faulty.table"));
    assert_answer(&run(&["check", "--quiet", p4, p4]), 0, "");
    assert_answer(&run(&["check", "-q", p4]), 0, "");
    let ran = run(&["check", p4, "-q", faulty]);
    assert_eq!((ran.status, ran.out.as_str()), (Some(1), ""));
    assert!(
        ran.err.starts_with(&format!("{faulty}: {FAULT}\n")),
        "{ran:?}"
    );
}
