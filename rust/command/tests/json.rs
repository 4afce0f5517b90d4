//! `--json`: what stands in the objects, read by a strict reader.

mod common;

use barfigol_tables::trials;
use common::json::{parse, parse_lines, text, Json};
use common::{example, file, folder, run, run_with};

const NAMES_NOTHING: &str = "a number names nothing, or no earlier node";
const FAULT: &str = "refused 4 at record 4 (ND 9, node 2): y = 12 names no earlier node";

fn texts(words: &[&str]) -> Json {
    Json::List(words.iter().map(|word| text(word)).collect())
}

fn numbers(values: &[i64]) -> Json {
    Json::List(values.iter().map(|value| Json::Number(*value)).collect())
}

#[test]
fn a_sound_table() {
    let p4 = &example("p4.table");
    let ran = run(&["check", "--json", p4]);
    assert_eq!((ran.status, ran.err.as_str()), (Some(0), ""));
    let expected = [
        ("table", text(p4)),
        ("sound", Json::Truth(true)),
        ("number", Json::Number(0)),
        ("record", Json::Number(0)),
    ];
    let expected = expected.map(|(key, value)| (key.to_string(), value));
    assert_eq!(parse_lines(&ran.out), [Json::Object(expected.to_vec())]);
}

#[test]
fn tables_of_every_sort() {
    let (p4, faulty) = (&example("p4.table"), &example("faulty.table"));
    let ran = run(&["check", "--json", faulty, "missing", p4]);
    assert_eq!(ran.status, Some(2));
    assert_eq!(ran.err, "barfigol: missing: No such file or directory\n");
    let objects = parse_lines(&ran.out);
    let keys = [
        "table",
        "sound",
        "number",
        "record",
        "reason",
        "explanation",
    ];
    assert_eq!(objects[0].keys(), keys);
    assert_eq!(objects[0].get("sound"), &Json::Truth(false));
    assert_eq!(objects[0].get("number"), &Json::Number(4));
    assert_eq!(objects[0].get("record"), &Json::Number(4));
    assert_eq!(objects[0].get("reason"), &text(NAMES_NOTHING));
    assert_eq!(objects[0].get("explanation"), &text(FAULT));
    assert_eq!(objects[1].keys(), ["table", "error"]);
    assert_eq!(objects[1].get("error"), &text("No such file or directory"));
    assert_eq!(objects[2].get("sound"), &Json::Truth(true));
    assert_eq!(objects.len(), 3);
}

#[test]
fn names_that_need_escapes() {
    let folder = folder("escapes");
    let name = "a \"b\" \\ \u{1b}[31m\t\n\u{7f}\u{9b}\u{202e}\u{e0001} größe \u{1f600}";
    let path = file(&folder, name, &trials::p4().bytes());
    let ran = run(&["check", "--json", &path]);
    assert!(ran
        .out
        .chars()
        .all(|letter| letter == '\n' || !letter.is_control()));
    assert_eq!(parse(ran.out.trim_end()).get("table"), &text(&path));
}

#[test]
fn a_name_that_is_no_utf_8() {
    use std::ffi::OsStr;
    use std::os::unix::ffi::OsStrExt;
    let folder = folder("no-utf-8");
    let name = folder.join(OsStr::from_bytes(b"a\xffb"));
    std::fs::write(&name, trials::p4().bytes()).expect("a file");
    let ran = run(&[OsStr::new("check"), OsStr::new("--json"), name.as_os_str()]);
    let shown = parse(ran.out.trim_end());
    assert_eq!(shown.get("table"), &text(&name.to_string_lossy()));
    assert_eq!(shown.get("sound"), &Json::Truth(true));
}

#[test]
fn an_evaluation() {
    let table = &example("placement.table");
    let ran = run(&["evaluate", "Kleene", table, "2", "2", "--json"]);
    assert_eq!((ran.status, ran.err.as_str()), (Some(3), ""));
    let expected = [
        ("table", text(table)),
        ("reading", text("kleene")),
        ("choice", Json::Number(2)),
        ("assignment", numbers(&[2, 2])),
        ("number", Json::Number(0)),
        ("record", Json::Number(0)),
        ("verdicts", texts(&["true", "undefined", "true"])),
        ("steps", Json::Number(24)),
        ("all_true", Json::Truth(false)),
    ];
    let expected = expected.map(|(key, value)| (key.to_string(), value));
    assert_eq!(parse_lines(&ran.out), [Json::Object(expected.to_vec())]);
    let ran = run(&["evaluate", "3", table, "2", "2", "--json"]);
    assert_eq!(ran.status, Some(0));
    assert_eq!(
        parse(ran.out.trim_end()).get("all_true"),
        &Json::Truth(true)
    );
}

/// Words behind evaluate, with number, record and explanation of the refusal.
const REFUSED: [(&[&str], i64, i64, &str); 3] = [
    (
        &["7", "-", "0"],
        7,
        0,
        "refused 7: 7 is no reading: 1 strict, 2 kleene, 3 relational",
    ),
    (
        &["1", "-", "-5"],
        10,
        1,
        "refused 10 at record 1 (VR 1, variable 0): value -5 is outside the domain 0..1",
    ),
    (
        &["1", "-", "0", "--budget=5"],
        11,
        0,
        "refused 11: 6 steps needed, the budget is 5",
    ),
];

#[test]
fn refused_evaluations() {
    let table = trials::p4().bytes();
    for (words, number, record, explanation) in REFUSED {
        let ran = run_with(&[&["evaluate", "--json"], words].concat(), &table);
        assert_eq!((ran.status, ran.err.as_str()), (Some(1), ""));
        let object = parse(ran.out.trim_end());
        assert_eq!(object.get("table"), &text("-"));
        assert_eq!(object.get("number"), &Json::Number(number));
        assert_eq!(object.get("record"), &Json::Number(record));
        assert_eq!(object.get("verdicts"), &Json::List(Vec::new()));
        assert_eq!(object.get("steps"), &Json::Number(0));
        assert_eq!(object.get("all_true"), &Json::Truth(false));
        assert_eq!(object.get("explanation"), &text(explanation));
        let reading = if number == 7 {
            Json::Null
        } else {
            text("strict")
        };
        assert_eq!(object.get("reading"), &reading);
    }
}

#[test]
fn many_evaluations() {
    let table = &example("p4.table");
    let words = [
        "evaluate",
        "relational",
        table,
        "--assignments",
        "-",
        "--json",
    ];
    let ran = run_with(&words, b"# y\n0\n\n1\n2\n");
    assert_eq!((ran.status, ran.err.as_str()), (Some(1), ""));
    let objects = parse_lines(&ran.out);
    let of = |key: &str| {
        objects
            .iter()
            .map(|object| object.get(key).clone())
            .collect()
    };
    assert_eq!(Json::List(of("line")), numbers(&[2, 4, 5]));
    assert_eq!(Json::List(of("number")), numbers(&[0, 0, 10]));
    assert_eq!(Json::List(of("record")), numbers(&[0, 0, 1]));
    assert_eq!(of("verdicts")[1], texts(&["false"]));
    assert_eq!(objects[0].keys()[..2], ["table", "line"]);
}

/// What is refused whatever the assignment is has one object, without a line.
#[test]
fn many_evaluations_of_a_faulty_table() {
    let faulty = &example("faulty.table");
    let words = ["evaluate", "1", faulty, "--assignments", "-", "--json"];
    let ran = run_with(&words, b"0\n1\n");
    assert_eq!((ran.status, ran.err.as_str()), (Some(1), ""));
    let objects = parse_lines(&ran.out);
    assert_eq!(objects.len(), 1);
    assert_eq!(objects[0].get("number"), &Json::Number(4));
    assert_eq!(objects[0].get("record"), &Json::Number(4));
    assert_eq!(objects[0].get("assignment"), &numbers(&[]));
    assert!(!objects[0].keys().contains(&"line"));
}

/// The keys that the help of a command describes.
fn described(command: &str) -> Vec<String> {
    let help = run(&["help", command]).out;
    let section = help.split("\nKeys of JSON, in this order:\n").nth(1);
    let lines = section.expect("keys").lines();
    let entries = lines.take_while(|line| !line.is_empty());
    let names = entries.filter_map(|line| line.strip_prefix("  ")?.split(' ').next());
    let names = names.filter(|name| !name.is_empty());
    names.map(String::from).collect()
}

/// Says that each object has keys that the help describes, in its order, and
/// that all of these stand in some object.
fn assert_described(command: &str, printed: &str) {
    let described = described(command);
    let objects = parse_lines(printed);
    for object in &objects {
        let mut rest = described.iter();
        for key in object.keys() {
            assert!(rest.any(|name| name == key), "{command}: {key}");
        }
    }
    for name in &described {
        let has = |object: &Json| object.keys().contains(&name.as_str());
        assert!(objects.iter().any(has), "{command}: {name}");
    }
}

#[test]
fn the_help_describes_every_key() {
    let (p4, faulty) = (&example("p4.table"), &example("faulty.table"));
    let checks = run(&["check", "--json", "missing", faulty, p4]).out;
    assert_described("check", &checks);
    let words = ["evaluate", "--json", "1", p4, "--assignments=-"];
    assert_described("evaluate", &run_with(&words, b"0\n9\n").out);
}
