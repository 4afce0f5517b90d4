//! Readers of standard output that go away, which is no failure.

mod common;

use barfigol_tables::{limits, trials};
use common::{ended, example, folder, shell, started, Ran};

/// The status and the complaints of the command where the reader is gone before
/// it has its input.
fn nobody_reads(words: &[&str], input: &[u8]) -> (Option<i32>, String) {
    let mut child = started(words);
    drop(child.stdout.take());
    let ran = Ran::from(ended(child, input));
    (ran.status, ran.err)
}

#[test]
fn nobody_reads_and_the_status_is_the_answers() {
    let p4 = trials::p4().bytes();
    let silent = |status| (Some(status), String::new());
    assert_eq!(nobody_reads(&["list", "strict", "-"], &p4), silent(0));
    assert_eq!(nobody_reads(&["check", "-"], &p4), silent(0));
    assert_eq!(nobody_reads(&["translate", "1", "-", "-"], &p4), silent(0));
    assert_eq!(
        nobody_reads(&["translate", "1", "-", "/dev/stdout"], &p4),
        silent(0)
    );
    assert_eq!(nobody_reads(&["evaluate", "3", "-", "0"], &p4), silent(0));
    assert_eq!(nobody_reads(&["evaluate", "1", "-", "0"], &p4), silent(3));
    assert_eq!(nobody_reads(&["--help"], &[]), silent(0));
    assert_eq!(nobody_reads(&["readings", "-"], &p4), silent(3));
}

/// A refusal is still explained: standard error has its own reader.
#[test]
fn a_refusal_is_explained_all_the_same() {
    let (status, err) = nobody_reads(&["list", "9", "-"], &trials::p4().bytes());
    assert_eq!(status, Some(1));
    assert!(err.starts_with("standard input: refused 7: "), "{err}");
}

/// Lines without end: the command stops when nobody reads.
#[test]
fn many_assignments_end_with_the_reader() {
    let table = example("p4.table");
    let words = ["evaluate", "relational", &table, "--assignments", "-"];
    let lines = "0\n".repeat(1_000_000);
    assert_eq!(
        nobody_reads(&words, lines.as_bytes()),
        (Some(0), String::new())
    );
}

/// As a script meets it: the first line is read and the pipe closed.
#[test]
fn the_head_of_a_listing() {
    let folder = folder("head");
    common::file(&folder, "long.table", &limits::records(1_200).bytes());
    let line = "{ barfigol list strict long.table; echo $? > status; } | head -n 1";
    let ran = shell(&folder, line);
    assert_eq!(
        (ran.status, ran.out.as_str(), ran.err.as_str()),
        (Some(0), "HD 1 0 2398 0\n", "")
    );
    let status = std::fs::read_to_string(folder.join("status")).expect("a status");
    assert_eq!(status, "0\n");
}
