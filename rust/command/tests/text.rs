//! `show` and `assemble`: a table as text, and back.

mod common;

use barfigol_tables::{examples, limits, trials};
use common::{assert_done, assert_misused, assert_refused, ended, example, file, folder};
use common::{names, run, run_with, shell, started, text, INPUT};
use std::fs;

/// The bytes that a run prints, with some bytes on standard input.
fn bytes_of_run(words: &[&str], input: &[u8]) -> Vec<u8> {
    let output = ended(started(words), input);
    assert_eq!(output.status.code(), Some(0));
    output.stdout
}

#[test]
fn a_table_with_what_it_means() {
    let expected = "\
HD 1 0 8 0      head: 8 records
VR 1 0 0 1      variable 0: 0..1
ND 1 0 1 0      node 0: 1
ND 3 0 0 0      node 1: variable 0
ND 9 0 0 1      node 2: node 0 div node 1
ND 25 0 2 0     node 3: node 2 = node 0
ND 24 0 3 0     node 4: not node 3
CN 0 0 4 0      constraint 0: node 4
";
    assert_done(&run(&["show", &example("p4.table")]), expected);
    assert_done(&run_with(&["show", "-"], &trials::p4().bytes()), expected);
}

/// A damaged table is shown all the same, with status 0.
#[test]
fn a_faulty_table_is_marked_in_place() {
    let ran = run(&["show", &example("faulty.table")]);
    let line =
        "ND 9 0 0 12     node 2: node 0 div node 12  ! refused 4: y = 12 names no earlier node";
    assert_eq!((ran.status, ran.err.as_str()), (Some(0), ""));
    assert_eq!(ran.out.lines().nth(4), Some(line));
}

/// assemble makes the same bytes of what show prints, for whatever bytes.
#[test]
fn there_and_back() {
    let mut tables: Vec<Vec<u8>> = examples::all()
        .iter()
        .map(|(_, table)| table.bytes())
        .collect();
    tables.push(limits::records(5_000).bytes());
    tables.push(Vec::new());
    tables.push((0..=255).collect());
    tables.push(vec![0x1b; 60_013]);
    tables.push(vec![0xff; 1 << 20]);
    for table in tables {
        let shown = bytes_of_run(&["show", "-"], &table);
        let lines = String::from_utf8(shown.clone()).expect("text");
        assert!(lines
            .chars()
            .all(|letter| letter == '\n' || !letter.is_control()));
        assert_eq!(bytes_of_run(&["assemble", "-", "-"], &shown), table);
    }
}

/// The lines of list are taken, too.
#[test]
fn a_listing_becomes_the_translation() {
    let folder = folder("listing");
    file(&folder, "p4.table", &trials::p4().bytes());
    let line = "barfigol list kleene p4.table > p4.txt && barfigol assemble p4.txt out.table && \
                barfigol translate kleene p4.table - | cmp - out.table";
    assert_done(&shell(&folder, line), "");
    assert_eq!(names(&folder), ["out.table", "p4.table", "p4.txt"]);
}

#[test]
fn errors_name_file_and_line() {
    let folder = folder("errors-of-text");
    let out = file(&folder, "out.table", b"as it was");
    for (lines, line, why) in [
        ("HD 1 0 1\n", 1, "y is missing"),
        (
            "HD 1 0 2 0\n# fine\n\nND 256 0 0 0\n",
            4,
            "'256' is no kind",
        ),
        ("HD 1 0 2 0\nNODE 1 0 0 0\n", 2, "'NODE' is no mark"),
        ("HD 1 0 1 0 9\n", 1, "'9' stands behind y"),
        (
            "HD 1 0 1 0\nND 1 0 \u{1b}[2J 0\n",
            2,
            "'\\u{1b}[2J' is no x",
        ),
    ] {
        let path = file(&folder, "table.txt", lines.as_bytes());
        for (source, ran) in [
            (path.as_str(), run(&["assemble", &path, &out])),
            (INPUT, run_with(&["assemble", "-", &out], lines.as_bytes())),
        ] {
            assert_eq!((ran.status, ran.out.as_str()), (Some(1), ""), "{ran:?}");
            let start = format!("{source}:{line}: refused: {why}");
            assert!(ran.err.starts_with(&start), "{ran:?}");
            assert_eq!(ran.err.lines().count(), 1, "{ran:?}");
        }
        assert_eq!(fs::read(&out).expect("a file"), b"as it was");
    }
    let bare = run_with(&["assemble", "-", "-"], b"HD 1 0 1\n");
    assert_eq!((bare.status, bare.out.as_str()), (Some(1), ""));
}

/// What is assembled is not checked: that is for check to do.
#[test]
fn a_faulty_text_is_assembled() {
    let text = "HD 1 0 ? 0\nND 9 0 5 6   # no such nodes\n";
    let bytes = bytes_of_run(&["assemble", "-", "-"], text.as_bytes());
    assert_eq!(bytes.len(), 24);
    let ran = run_with(&["check", "-"], &bytes);
    let fault = "refused 4 at record 1 (ND 9, node 0): \
                 x = 5 names no earlier node; y = 6 names no earlier node";
    assert_refused(&ran, INPUT, "", fault);
}

#[test]
fn files_that_cannot_be_read_or_written() {
    let folder = folder("no-text");
    let missing = &text(&folder.join("missing"));
    let out = &text(&folder.join("out"));
    assert_misused(
        &run(&["show", missing]),
        "missing: No such file or directory",
    );
    assert_misused(
        &run(&["assemble", missing, out]),
        "missing: No such file or directory",
    );
    assert_misused(
        &run(&["show", "/dev/zero"]),
        "/dev/zero: it is longer than 1048576 bytes",
    );
    assert_misused(
        &run(&["assemble", "/dev/zero", out]),
        "/dev/zero: it is longer than 33554432 bytes",
    );
    let text = file(&folder, "text", b"HD 1 0 1 0\n");
    assert_misused(
        &run(&["assemble", &text, "/proc/out"]),
        "no file can be made in /proc",
    );
    assert_misused(
        &run(&["assemble", &text]),
        "assemble takes TEXT OUT, and OUT is missing",
    );
    assert_eq!(names(&folder), ["text"]);
}
