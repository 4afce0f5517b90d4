//! `evaluate` at the assignments of a file, one to a line.

mod common;

use barfigol_tables::{limits, Table};
use common::{assert_answer, assert_done, assert_misused, assert_no, assert_refused};
use common::{example, file, folder, run, run_with, started, text, INPUT};
use std::io::{BufRead, BufReader, Write};
use std::sync::mpsc;
use std::thread;
use std::time::Duration;

/// Each line has what evaluate says at its values.
#[test]
fn a_line_to_each_assignment() {
    let table = &example("placement.table");
    let points: Vec<[String; 2]> = (0..9)
        .map(|n| [(n / 3).to_string(), (n % 3).to_string()])
        .collect();
    let lines: String = points.iter().map(|point| point.join(" ") + "\n").collect();
    let path = &file(&folder("points"), "points.txt", lines.as_bytes());
    for reading in ["strict", "kleene", "relational"] {
        let expected = points.iter().map(|[frame, log]| {
            let alone = run(&["evaluate", reading, table, frame, log]).out;
            let parts: Vec<&str> = alone.lines().collect();
            format!("{}; {}\n", parts[..3].join(" "), parts[3..].join("; "))
        });
        let expected: String = expected.collect();
        let words = ["evaluate", reading, table, "--assignments"];
        assert_no(&run(&[&words[..], &[path]].concat()), &expected);
        let piped = run_with(&[&words[..], &["-"]].concat(), lines.as_bytes());
        assert_no(&piped, &expected);
    }
}

#[test]
fn the_status_of_many() {
    let table = &example("p4.table");
    let at = |lines: &str| {
        let words = ["evaluate", "relational", table, "--assignments", "-"];
        run_with(&words, lines.as_bytes())
    };
    assert_done(
        &at("0\n0\n"),
        "true; steps 6; all true\ntrue; steps 6; all true\n",
    );
    let both = "true; steps 6; all true\nfalse; steps 6; not all true\n";
    assert_no(&at("0\n1"), both);
    assert_done(&at(""), "");
    let ran = at("1\n7\n0\n0 0\n");
    let lines =
        "false; steps 6; not all true\nrefused 10 1\ntrue; steps 6; all true\nrefused 10 0\n";
    assert_eq!((ran.status, ran.out.as_str()), (Some(1), lines));
    let complaints = format!(
        "{INPUT}:2: {table}: refused 10 at record 1 (VR 1, variable 0): value 7 is outside the domain 0..1\n\
         {INPUT}:4: {table}: refused 10: 2 values given for 1 variable\n"
    );
    assert_eq!(ran.err, complaints);
}

#[test]
fn comments_and_blank_lines() {
    let lines = "# frame and log\n\n  2\t0 # fits\r\n   \n2 0";
    let words = [
        "evaluate",
        "kleene",
        &example("placement.table"),
        "--assignments=-",
    ];
    let line = "true true true; steps 24; all true\n";
    assert_done(&run_with(&words, lines.as_bytes()), &line.repeat(2));
}

/// The lines before are answered, and the bad one is named.
#[test]
fn a_bad_line_is_named_by_its_number() {
    let table = &example("p4.table");
    let folder = folder("bad-lines");
    let long = "0".repeat(65_537);
    for (line, why) in [
        ("x", "'x' is no signed number of 32 bits"),
        ("0,1", "'0,1' is no signed number of 32 bits"),
        ("2147483648", "'2147483648' is no signed number of 32 bits"),
        ("0 \u{1b}[2J", "'\\u{1b}[2J' is no signed number of 32 bits"),
        (&long, "the line is longer than 65536 bytes"),
    ] {
        let text = format!("0\n\n# fine\n{line}\n0\n");
        let path = &file(&folder, "points.txt", text.as_bytes());
        let ran = run(&["evaluate", "relational", table, "--assignments", path]);
        assert_eq!(ran.out, "true; steps 6; all true\n");
        assert_eq!(
            (ran.status, ran.err),
            (Some(2), format!("barfigol: {path}:4: {why}\n"))
        );
    }
}

/// What is refused whatever the assignment is, is refused once, in the order of
/// document 01.
#[test]
fn refusals_of_the_table_come_first() {
    let faulty = &example("faulty.table");
    let fault = "refused 4 at record 4 (ND 9, node 2): y = 12 names no earlier node";
    let seven = "refused 7: 9 is no reading: 1 strict, 2 kleene, 3 relational";
    for lines in ["", "0\n1\n", "no line"] {
        let words = ["evaluate", "strict", faulty, "--assignments", "-"];
        assert_refused(&run_with(&words, lines.as_bytes()), faulty, "", fault);
        let words = ["evaluate", "9", faulty, "--assignments", "-"];
        assert_refused(&run_with(&words, lines.as_bytes()), faulty, "", seven);
    }
}

#[test]
fn refusals_of_single_assignments() {
    let table = &example("p4.table");
    let words = [
        "evaluate",
        "strict",
        table,
        "--assignments",
        "-",
        "--budget",
        "5",
    ];
    let ran = run_with(&words, b"0\n1\n");
    assert_eq!(
        (ran.status, ran.out.as_str()),
        (Some(1), "refused 11 0\nrefused 11 0\n")
    );
    let large = limits::constant(2_000_000_001).bytes();
    let folder = folder("eight");
    let large = file(&folder, "large.table", &large);
    let none = file(&folder, "none.txt", b"1\n");
    let ran = run(&["evaluate", "strict", &large, "--assignments", &none]);
    assert_eq!((ran.status, ran.out.as_str()), (Some(1), "refused 10 0\n"));
}

#[test]
fn a_table_without_constraints() {
    let folder = folder("no-constraints");
    let table = file(&folder, "t", &Table::new().variable(0, 5).bytes());
    let ran = run_with(
        &["evaluate", "strict", &table, "--assignments", "-"],
        b"5\n",
    );
    assert_done(&ran, "steps 0; all true\n");
}

#[test]
fn quiet_at_many() {
    let table = &example("p4.table");
    let words = ["evaluate", "relational", table, "--assignments", "-", "-q"];
    assert_answer(&run_with(&words, b"0\n"), 0, "");
    assert_answer(&run_with(&words, b"0\n1\n"), 3, "");
    let ran = run_with(&words, b"0\n1\n2\n");
    assert_eq!((ran.status, ran.out.as_str()), (Some(1), ""));
    assert!(ran.err.contains(":3: "), "{ran:?}");
}

#[test]
fn wrong_use_of_assignments() {
    let p4 = &example("p4.table");
    let missing = &text(&folder("no-points").join("points.txt"));
    let cases: [(&[&str], &str); 5] = [
        (
            &["evaluate", "1", p4, "0", "--assignments", "f"],
            "values and --assignments exclude each other",
        ),
        (
            &["evaluate", "1", "-", "--assignments", "-"],
            "- is given twice",
        ),
        (
            &["evaluate", "1", p4, "--assignments"],
            "--assignments takes FILE",
        ),
        (
            &["evaluate", "1", p4, "--assignments", missing],
            "points.txt: No such file or directory",
        ),
        (
            &["list", "1", p4, "--assignments", "f"],
            "'--assignments' is no option of list",
        ),
    ];
    for (words, part) in cases {
        assert_misused(&run(words), part);
    }
}

/// A program on the other side of a pipe gets its answer before it sends the
/// next line.
#[test]
fn answers_come_line_by_line() {
    let table = &example("p4.table");
    let mut child = started(&["evaluate", "relational", table, "--assignments", "-"]);
    let mut input = child.stdin.take().expect("a pipe");
    let output = BufReader::new(child.stdout.take().expect("a pipe"));
    let (sender, answers) = mpsc::channel();
    thread::spawn(move || output.lines().try_for_each(|line| sender.send(line)));
    for (value, verdict) in [("0", "true"), ("1", "false"), ("0", "true")] {
        writeln!(input, "{value}").expect("a reader");
        let line = answers.recv_timeout(Duration::from_secs(60));
        let line = line.expect("an answer in time").expect("a line");
        assert!(line.starts_with(&format!("{verdict}; steps 6; ")), "{line}");
    }
    drop(input);
    assert_eq!(child.wait().expect("the command ends").code(), Some(3));
}

/// Many assignments need no start of a process each.
#[test]
fn a_hundred_thousand_assignments() {
    let lines = "0\n1\n".repeat(50_000);
    let path = &file(&folder("many"), "points.txt", lines.as_bytes());
    let ran = run(&[
        "evaluate",
        "relational",
        &example("p4.table"),
        "--assignments",
        path,
    ]);
    assert_eq!((ran.status, ran.out.lines().count()), (Some(3), 100_000));
    assert_eq!(ran.out.matches("; all true\n").count(), 50_000);
}
