//! The words of the command line: what may stand where, and misuse, which ends
//! with 2 and one line on standard error.

mod common;

use barfigol_tables::{Node, Table};
use common::{assert_done, assert_misused, assert_no, assert_refused, example, file, folder};
use common::{run, run_with, text, INPUT};

/// A table that is not looked at, since the words are wrong.
const TABLE: &str = "unread.table";

/// Words that ask for nothing, and what is said of them.
const WRONG_WORDS: [(&[&str], &str); 19] = [
    (&[], "nothing is asked for (see barfigol --help)"),
    (
        &["solve", TABLE],
        "'solve' is no command (see barfigol --help)",
    ),
    (&["-"], "'-' is no command"),
    (&["-1"], "'-1' is no command"),
    (&["version"], "'version' is no command (see"),
    (
        &["check"],
        "check takes TABLE.., and TABLE is missing (see barfigol help check)",
    ),
    (&["--version", TABLE], "--version stands alone"),
    (
        &["list"],
        "list takes READING TABLE, and READING is missing",
    ),
    (
        &["list", "strict"],
        "list takes READING TABLE, and TABLE is missing",
    ),
    (
        &["list", "strict", TABLE, "x"],
        "list takes READING TABLE, and 'x' is one too many",
    ),
    (
        &["translate", "strict", TABLE],
        "translate takes READING TABLE OUT, and OUT is missing",
    ),
    (
        &["evaluate", "strict"],
        "evaluate takes READING TABLE [VALUE..], and TABLE is missing",
    ),
    (
        &["evaluate", "strict", TABLE, "y"],
        "'y' is no signed number of 32 bits",
    ),
    (&["evaluate", "strict", TABLE, ""], "'' is no signed number"),
    (
        &["evaluate", "strict", TABLE, "2147483648"],
        "'2147483648' is no signed",
    ),
    (
        &["evaluate", "strict", TABLE, "-2147483649"],
        "no signed number of 32 bits",
    ),
    (
        &["evaluate", "strict", TABLE, "0.5"],
        "no signed number of 32 bits",
    ),
    (
        &["check", "-", TABLE, "-"],
        "- is given twice, and standard input can be read once",
    ),
    (&["readings", TABLE, TABLE], "readings takes TABLE, and '"),
];

#[test]
fn wrong_words() {
    for (words, part) in WRONG_WORDS {
        assert_misused(&run(words), part);
    }
}

/// Words that are no option there, and what is said of them.
const WRONG_OPTIONS: [(&[&str], &str); 12] = [
    (
        &["evaluate", "strict", TABLE, "--bugdet", "6"],
        "'--bugdet' is no option of evaluate: did you mean '--budget'?",
    ),
    (
        &["evaluate", "--bugdet=6", "strict", TABLE],
        "'--bugdet' is no option of evaluate: did you mean '--budget'?",
    ),
    (
        &["evaluate", "strict", TABLE, "--assign", "f"],
        "did you mean '--assignments'?",
    ),
    (
        &["check", "--JSON", TABLE],
        "'--JSON' is no option of check: did you mean '--json'?",
    ),
    (&["check", "-j", TABLE], "'-j' is no option of check (see"),
    (
        &["list", "--json", "strict", TABLE],
        "'--json' is no option of list (see",
    ),
    (&["check", "--json=yes", TABLE], "--json takes no value"),
    (
        &["check", "--version", TABLE],
        "'--version' is no option of check (see",
    ),
    (
        &["--bugdet", "check"],
        "'--bugdet' is no option: did you mean '--budget'?",
    ),
    (
        &["--budget", "6", "evaluate"],
        "--budget stands behind a command",
    ),
    (&["-q", "check", TABLE], "--quiet stands behind a command"),
    (
        &["check", "--json", "-q", TABLE],
        "--json and --quiet exclude each other",
    ),
];

#[test]
fn wrong_options_are_called_options() {
    for (words, part) in WRONG_OPTIONS {
        assert_misused(&run(words), part);
    }
}

/// Words with wrong letters, and what is asked.
const MISTYPED: [(&[&str], &str); 9] = [
    (
        &["evalute"],
        "'evalute' is no command: did you mean 'evaluate'?",
    ),
    (&["eval"], "did you mean 'evaluate'?"),
    (
        &["Check", TABLE],
        "'Check' is no command: did you mean 'check'?",
    ),
    (&["tarnslate"], "did you mean 'translate'?"),
    (
        &["help", "evalute"],
        "'evalute' is no command: did you mean 'evaluate'?",
    ),
    (
        &["list", "strikt", TABLE],
        "'strikt' is no reading: did you mean 'strict'?",
    ),
    (&["list", "klene", TABLE], "did you mean 'kleene'?"),
    (&["list", "rel", TABLE], "did you mean 'relational'?"),
    (
        &["help", "--completions", "bsh"],
        "no completions for 'bsh': did you mean 'bash'?",
    ),
];

#[test]
fn mistyped_words_are_suggested() {
    for (words, part) in MISTYPED {
        assert_misused(&run(words), part);
    }
}

#[test]
fn words_that_are_no_reading() {
    for reading in ["lazy", "", "-1", "4294967296", "1.0", "1 "] {
        let part = format!("'{reading}' is no reading: strict, kleene, relational");
        assert_misused(&run(&["list", reading, &example("p4.table")]), &part);
        assert_misused(&run(&["evaluate", reading, "missing", "0"]), &part);
        assert_misused(&run(&["translate", reading, "missing", "out"]), &part);
    }
}

#[test]
fn budgets_that_are_none() {
    let p4 = &example("p4.table");
    let budget = |words: &[&str]| {
        let mut all = vec!["evaluate", "strict", p4, "0"];
        all.extend_from_slice(words);
        run(&all)
    };
    assert_misused(&budget(&["--budget"]), "--budget takes N");
    for word in ["-1", "4294967296", "many", ""] {
        let part = format!("'{word}' is no budget");
        assert_misused(&budget(&["--budget", word]), &part);
        assert_misused(&budget(&[&format!("--budget={word}")]), &part);
    }
    let twice = budget(&["--budget", "9", "--budget=9"]);
    assert_misused(&twice, "--budget is given twice");
}

/// Both forms of an option, before, between and behind the operands.
#[test]
fn options_may_stand_anywhere() {
    let path = example("placement.table");
    let done = run(&["evaluate", "kleene", &path, "2", "0"]);
    assert_done(&done, "true\ntrue\ntrue\nsteps 24\nall true\n");
    let eleven = "refused 11: 24 steps needed, the budget is 23";
    for place in 1..=5 {
        let mut words = vec!["evaluate", "kleene", &path, "2", "0"];
        words.splice(place..place, ["--budget", "24"]);
        assert_eq!(run(&words), done);
        words[place + 1] = "23";
        assert_refused(&run(&words), &path, "", eleven);
        words.splice(place..place + 2, ["--budget=24"]);
        assert_eq!(run(&words), done);
        words[place] = "--budget=23";
        assert_refused(&run(&words), &path, "", eleven);
    }
}

#[test]
fn two_dashes_end_the_options() {
    let folder = folder("dashes");
    let table = file(
        &folder,
        "--json",
        &std::fs::read(example("p4.table")).expect("p4"),
    );
    let bare = common::shell(&folder, "barfigol check -- --json");
    assert_done(&bare, "sound\n");
    assert_done(&run(&["check", "--", &table]), "sound\n");
    let ran = run(&["evaluate", "--budget", "6", "--", "relational", &table, "0"]);
    assert_done(&ran, "true\nsteps 6\nall true\n");
    let ran = run(&["evaluate", "relational", &table, "0", "--", "--budget"]);
    assert_misused(&ran, "'--budget' is no signed number of 32 bits");
    assert_misused(&run(&["check", "--"]), "TABLE is missing");
    // Help is an option like others.
    assert_misused(&run(&["check", "--", "--help"]), "--help: No such file");
}

#[test]
fn negative_values_are_no_options() {
    let table = Table::new()
        .variable(i32::MIN, 5)
        .node(Node::variable(0))
        .node(Node::constant(0))
        .node(Node::below(0, 1))
        .constraint(2)
        .bytes();
    for value in ["-7", "-2000000000"] {
        for words in [vec![value], vec!["--", value], vec!["--budget=9", value]] {
            let mut all = vec!["evaluate", "strict", "-"];
            all.extend(words);
            assert_done(&run_with(&all, &table), "true\nsteps 3\nall true\n");
        }
    }
    let ran = run_with(&["evaluate", "strict", "-", "5"], &table);
    assert_no(&ran, "false\nsteps 3\nnot all true\n");
    let ran = run_with(&["evaluate", "strict", "-", "-2147483648"], &table);
    let eight = "refused 8: a value is beyond ±2000000000; \
                 the first node that can pass the limit is node 0 (record 2)";
    assert_refused(&ran, INPUT, "", eight);
}

#[test]
fn files_that_are_not_there() {
    let folder = folder("missing");
    let missing = &text(&folder.join("missing.table"));
    let why = format!("barfigol: {missing}: No such file or directory\n");
    let out = folder.join("out.table");
    for words in [
        vec!["check", missing],
        vec!["list", "strict", missing],
        vec!["evaluate", "strict", missing, "0"],
        vec!["readings", missing],
        vec!["translate", "strict", missing, &text(&out)],
    ] {
        let ran = run(&words);
        assert_misused(&ran, missing);
        assert_eq!(ran.err, why);
    }
    assert!(!out.exists());
    assert_misused(&run(&["check", &text(&folder)]), "Is a directory");
    assert_misused(&run(&["check", ""]), "barfigol: '': No such file");
}

/// Nothing that a terminal would obey goes to it from a name or a word.
#[test]
fn control_characters_are_escaped() {
    let folder = folder("control");
    let name = "a\u{1b}[2J\nb\u{202e}.table";
    let shown = "a\\u{1b}[2J\\nb\\u{202e}.table";
    let faulty = std::fs::read(example("faulty.table")).expect("a table");
    let path = file(&folder, name, &faulty);
    let ran = run(&["check", &path, &example("p4.table"), "gone\u{7}"]);
    let plain = |text: &str| {
        text.chars()
            .all(|letter| letter == '\n' || !letter.is_control())
    };
    assert!(plain(&ran.out) && plain(&ran.err), "{ran:?}");
    assert!(
        ran.out.contains(&format!("{shown}: refused 4 4\n")),
        "{ran:?}"
    );
    assert!(
        ran.err.contains(&format!("{shown}: refused 4 at record 4")),
        "{ran:?}"
    );
    assert!(ran.err.contains("gone\\u{7}: No such file"), "{ran:?}");
    for words in [
        vec!["sol\u{1b}ve"],
        vec!["--\u{1b}"],
        vec!["list", "\u{9b}31m", "x"],
        vec!["evaluate", "1", "x", "\r1"],
        vec!["list", "1", "x", "\u{1b}"],
        vec!["evaluate", "1", "x", "--budget", "\u{1b}"],
        vec!["help", "--completions", "\u{1b}"],
        vec!["translate", "1", &example("p4.table"), "no\u{1b}folder/out"],
    ] {
        let ran = run(&words);
        assert!(plain(&ran.err), "{ran:?}");
        assert_misused(&ran, "\\");
    }
}

#[test]
fn words_that_are_no_utf_8() {
    use std::ffi::OsStr;
    use std::os::unix::ffi::OsStrExt;
    let bad = OsStr::from_bytes(b"a\xff");
    let p4 = example("p4.table");
    let words = |words: &[&OsStr]| {
        words
            .iter()
            .map(|word| word.to_os_string())
            .collect::<Vec<_>>()
    };
    let of = |text: &'static str| OsStr::new(text);
    assert_misused(&run(&words(&[bad])), "'a\\xff' is no command");
    assert_misused(&run(&words(&[of("check"), bad])), "a\\xff: No such file");
    assert_misused(
        &run(&words(&[of("list"), bad, of("x")])),
        "'a\\xff' is no reading",
    );
    let value = words(&[of("evaluate"), of("1"), OsStr::new(&p4), bad]);
    assert_misused(&run(&value), "'a\\xff' is no signed number");
}
