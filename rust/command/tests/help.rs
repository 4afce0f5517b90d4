//! Help, version, the man page and completions, which are made from one
//! description.

mod common;

use barfigol_format::{Node, Table};
use common::{assert_done, assert_misused, example, run, run_with, Ran, COMMAND};
use std::process::Command;

/// The sub-commands, with a word of what each takes.
const COMMANDS: [(&str, &str); 8] = [
    ("check", "TABLE.."),
    ("list", "READING TABLE"),
    ("translate", "READING TABLE OUT"),
    ("evaluate", "READING TABLE [VALUE..]"),
    ("readings", "TABLE"),
    ("show", "TABLE"),
    ("assemble", "TEXT OUT"),
    ("help", "[COMMAND]"),
];

/// The options, with the sub-command that takes each.
const OPTIONS: [(&str, &str); 6] = [
    ("evaluate", "--budget"),
    ("evaluate", "--assignments"),
    ("check", "--json"),
    ("readings", "--quiet"),
    ("help", "--man"),
    ("help", "--completions"),
];

fn printed(words: &[&str]) -> String {
    let ran = run(words);
    assert_eq!((ran.status, ran.err.as_str()), (Some(0), ""), "{words:?}");
    ran.out
}

#[test]
fn help_about_everything() {
    let help = printed(&["--help"]);
    for same in ["-h", "help"] {
        assert_eq!(printed(&[same]), help);
    }
    for (name, takes) in COMMANDS {
        assert!(help.contains(&format!("\n  barfigol {name} ")), "{name}");
        assert!(help.contains(takes), "{takes}");
        assert!(help.contains(&format!("\n  {name} ")), "{name}");
    }
    for (_, option) in OPTIONS {
        assert!(help.contains(&format!("\n  {option}")) || help.contains(&format!(", {option}")));
    }
    for status in 0..=4 {
        assert!(help.contains(&format!("\n  {status}  ")), "{status}");
    }
}

#[test]
fn help_about_one_command() {
    for (name, takes) in COMMANDS {
        let help = printed(&["help", name]);
        for words in [
            [name, "--help"],
            [name, "-h"],
            ["--help", name],
            ["-h", name],
        ] {
            assert_eq!(printed(&words), help, "{words:?}");
        }
        assert!(help.starts_with(&format!("barfigol {name}: ")), "{help}");
        assert!(
            help.contains(takes) && help.contains("\nExit status:\n"),
            "{help}"
        );
        let examples = help.split("\nExamples:\n").nth(1).expect("examples");
        assert!(
            examples.contains(&format!("barfigol {name} ")),
            "{examples}"
        );
    }
    for (name, option) in OPTIONS {
        assert!(printed(&["help", name]).contains(option), "{option}");
    }
    // Help is given wherever it is asked for, also where other words are wrong.
    let help = printed(&["help", "evaluate"]);
    assert_eq!(printed(&["evaluate", "strict", "--help", "x"]), help);
    assert_misused(&run(&["help", "solve"]), "'solve' is no command");
    assert_misused(&run(&["help", "check", "list"]), "'list' is one too many");
    assert_misused(&run(&["help", "check", "--man"]), "exclude each other");
}

/// The number between two parts of a text.
fn number_between(text: &str, before: &str, after: &str) -> u64 {
    let rest = text.split(before).nth(1).expect(before);
    let number = rest.split(after).next().unwrap_or("");
    number.parse().expect(number)
}

/// What the help says of the budget of readings and of the longest file that is
/// shown is what the command does.
#[test]
fn the_numbers_of_the_help() {
    let in_one_line = |name: &str| {
        let help = printed(&["help", name]);
        help.split_whitespace().collect::<Vec<_>>().join(" ")
    };
    let table = Table::new()
        .variable(i32::MIN, i32::MAX)
        .slot(1, 10_000)
        .nodes(&[Node::truth(1), Node::forall(0, 0)])
        .constraint(1);
    let cut_off = run_with(&["readings", "-"], &table.bytes()).out;
    let budget = number_between(&cut_off, "the budget is ", "\n");
    let help = in_one_line("readings");
    assert!(help.contains(&format!(" and {budget} for readings.")));
    let longer = run(&["show", "/dev/zero"]).err;
    let most = number_between(&longer, "it is longer than ", " bytes");
    let help = in_one_line("show");
    assert!(help.contains(&format!(" of at most {most} bytes,")));
}

#[test]
fn no_line_is_too_long_for_a_terminal() {
    let pages = COMMANDS.iter().map(|(name, _)| printed(&["help", name]));
    for page in pages.chain([printed(&["help"])]) {
        for line in page.lines() {
            assert!(line.chars().count() < 80, "{line}");
            assert_eq!(line.trim_end(), line);
        }
    }
}

#[test]
fn name_and_version() {
    let version = format!("barfigol {}\n", env!("CARGO_PKG_VERSION"));
    assert_done(&run(&["--version"]), &version);
    assert_done(&run(&["-V"]), &version);
}

/// The texts say `barfigol`, whatever the program is started as.
#[test]
fn started_under_another_name() {
    let folder = common::folder("other-name");
    let other = folder.join("other");
    std::os::unix::fs::symlink(COMMAND, &other).expect("a link");
    let ran: Ran = Command::new(&other)
        .arg("--help")
        .output()
        .expect("starts")
        .into();
    assert_done(&ran, &printed(&["--help"]));
    let ran: Ran = Command::new(&other).output().expect("starts").into();
    assert_misused(&ran, "nothing is asked for (see barfigol --help)");
}

#[test]
fn the_man_page_has_everything() {
    let page = printed(&["help", "--man"]);
    let version = env!("CARGO_PKG_VERSION");
    let title = format!(".TH BARFIGOL 1 \"\" \"barfigol {version}\" \"User Commands\"\n");
    assert!(page.starts_with(&title), "{page:.200}");
    assert!(page.contains("\n.SH NAME\nbarfigol \\- "));
    for section in [
        "SYNOPSIS",
        "DESCRIPTION",
        "COMMANDS",
        "OPERANDS",
        "OPTIONS",
        "EXIT STATUS",
        "JSON",
        "EXAMPLES",
        "SEE ALSO",
    ] {
        assert!(page.contains(&format!("\n.SH {section}\n")), "{section}");
    }
    for (name, _) in COMMANDS {
        assert!(page.contains(&format!("\n.SS {name}\n")), "{name}");
        assert!(page.contains(&format!("\\fBbarfigol {name}\\fR")), "{name}");
    }
    for (_, option) in OPTIONS {
        let roff = option.replace('-', "\\-");
        assert!(page.contains(&format!("\\fB{roff}\\fR")), "{option}");
    }
}

/// Every line is text or a request that is meant, and no dash is a hyphen.
#[test]
fn the_man_page_is_sound_roff() {
    let requests = [
        ".TH", ".SH", ".SS", ".TP", ".PP", ".br", ".nf", ".fi", ".nh", ".hy",
    ];
    let page = printed(&["help", "--man"]);
    for line in page.lines().skip(1) {
        if line.starts_with('.') || line.starts_with('\'') {
            let request = line.split(' ').next().unwrap_or("");
            assert!(requests.contains(&request), "{line}");
        }
        for escape in line.split('\\').skip(1) {
            let known = ["-", "e", "&", "fB", "fI", "fR"];
            assert!(
                known.iter().any(|known| escape.starts_with(known)),
                "{line}"
            );
        }
        assert!(!line.replace("\\-", "").contains('-'), "{line}");
    }
    // groff itself has nothing to say, where it is there.
    let groff = common::shell(
        &common::root(),
        "command -v groff > /dev/null || exit 0; barfigol help --man | groff -man -ww -b -Tutf8 > /dev/null",
    );
    assert_done(&groff, "");
}

/// What bash completes for a line, in a folder with the file `p4.table`.
fn completed(line: &[&str]) -> Vec<String> {
    let folder = common::folder("completed");
    common::file(&folder, "p4.table", &[]);
    common::file(&folder, "a b", &[]);
    let script = "source <(\"$1\" help --completions bash); shift; \
                  COMP_WORDS=(\"$@\"); COMP_CWORD=$(($# - 1)); _barfigol; \
                  printf '%s\\n' \"${COMPREPLY[@]}\"; complete -p barfigol >&2";
    let ran: Ran = Command::new("bash")
        .args(["--norc", "-c", script, "bash", COMMAND])
        .args(line)
        .current_dir(&folder)
        .output()
        .expect("bash starts")
        .into();
    assert_eq!(ran.err, "complete -F _barfigol barfigol\n");
    let mut words: Vec<String> = ran.out.split_terminator('\n').map(String::from).collect();
    words.retain(|word| !word.is_empty());
    words.sort();
    words
}

const READINGS: [&str; 3] = ["kleene", "relational", "strict"];
const FILES: [&str; 2] = ["a b", "p4.table"];

/// Lines, and the words that can stand at their end. bash makes a word of an
/// equals sign.
const COMPLETED: [(&[&str], &[&str]); 22] = [
    (&["barfigol", "ch"], &["check"]),
    (&["barfigol", "--v"], &["--version"]),
    (&["barfigol", "list", ""], &READINGS),
    (&["barfigol", "list", "re"], &["relational"]),
    (&["barfigol", "list", "strict", ""], &FILES),
    (&["barfigol", "list", "strict", "p4.table", ""], &[]),
    (&["barfigol", "check", "p4.table", "a"], &["a b"]),
    (&["barfigol", "check", "--j"], &["--json"]),
    (&["barfigol", "list", "--j"], &[]),
    (&["barfigol", "evaluate", "--budget", ""], &[]),
    (&["barfigol", "evaluate", "--budget", "6", ""], &READINGS),
    (
        &["barfigol", "evaluate", "--budget", "=", "6", ""],
        &READINGS,
    ),
    (
        &["barfigol", "evaluate", "-q", "strict", "p"],
        &["p4.table"],
    ),
    (
        &["barfigol", "evaluate", "strict", "p4.table", "-7", ""],
        &[],
    ),
    (
        &["barfigol", "evaluate", "strict", "-", "--assignments", "p"],
        &["p4.table"],
    ),
    (&["barfigol", "evaluate", "--assignments", "="], &FILES),
    (
        &["barfigol", "evaluate", "--assignments", "=", "p"],
        &["p4.table"],
    ),
    (
        &["barfigol", "translate", "strict", "-", "p"],
        &["p4.table"],
    ),
    (&["barfigol", "show", "p"], &["p4.table"]),
    (&["barfigol", "assemble", "-", "p"], &["p4.table"]),
    (&["barfigol", "help", "re"], &["readings"]),
    (
        &["barfigol", "help", "--completions", ""],
        &["bash", "fish", "zsh"],
    ),
];

#[test]
fn completions_for_bash() {
    for (line, expected) in COMPLETED {
        assert_eq!(completed(line), expected, "{line:?}");
    }
}

/// The scripts for zsh and fish have every word, and their shells read them,
/// where they are there.
#[test]
fn completions_for_zsh_and_fish() {
    for (name, first) in [
        ("zsh", "#compdef barfigol\n"),
        ("fish", "# Completions of barfigol for fish.\n"),
    ] {
        let script = printed(&["help", "--completions", name]);
        assert_eq!(printed(&["help", &format!("--completions={name}")]), script);
        assert!(script.starts_with(first), "{name}");
        for (command, _) in COMMANDS {
            assert!(script.contains(command), "{command}");
        }
        for (_, option) in OPTIONS {
            let word = option.trim_start_matches('-');
            assert!(script.contains(word), "{option}");
        }
        for word in ["strict kleene relational", "bash zsh fish"] {
            assert!(script.contains(word), "{word}");
        }
        let line = format!(
            "command -v {name} > /dev/null || exit 0; barfigol help --completions {name} > s.{name} && {name} -n s.{name}"
        );
        assert_done(
            &common::shell(&common::folder(&format!("script-{name}")), &line),
            "",
        );
    }
    assert_misused(
        &run(&["help", "--completions", "csh"]),
        "there are no completions for 'csh'",
    );
    assert_misused(
        &run(&["help", "--completions"]),
        "--completions takes SHELL",
    );
}

/// Each example of the help is a command line that is understood.
#[test]
fn the_examples_are_understood() {
    for (name, _) in COMMANDS {
        let help = printed(&["help", name]);
        let examples = help.split("\nExamples:\n").nth(1).expect("examples");
        let folder = common::folder(&format!("examples-{name}"));
        std::fs::create_dir(folder.join("tables")).expect("a folder");
        let placement = std::fs::read(example("placement.table")).expect("a table");
        common::file(&folder, "rules.table", &placement);
        common::file(&folder, "tables/one.table", &placement);
        common::file(&folder, "points.txt", b"2 0\n");
        common::file(&folder, "rules.txt", b"HD 1 0 ? 0\n");
        for line in examples.lines() {
            let ran = common::shell(&folder, line);
            assert_ne!(ran.status, Some(2), "{line}\n{ran:?}");
            assert!(!ran.err.contains("barfigol: "), "{line}\n{ran:?}");
        }
    }
}

/// What fish completes, where it is there.
#[test]
fn completions_for_fish() {
    let folder = common::folder("fish");
    common::file(&folder, "p4.table", &[]);
    if common::shell(&folder, "command -v fish > /dev/null").status != Some(0) {
        return;
    }
    let readings = "kleene\nrelational\nstrict\n";
    for (line, expected) in [
        ("barfigol list ", readings),
        ("barfigol list strict p", "p4.table\n"),
        ("barfigol evaluate --budget 6 ", readings),
        ("barfigol evaluate strict p4.table -7 ", ""),
        ("barfigol check p4.table p", "p4.table\n"),
        ("barfigol assemble - p", "p4.table\n"),
    ] {
        let script = format!(
            "barfigol help --completions fish > s.fish && \
             HOME=$PWD fish -N -c 'source s.fish; complete -C \"{line}\"'"
        );
        assert_done(&common::shell(&folder, &script), expected);
    }
}

/// The first page has the commands and the exit statuses of the help.
#[test]
fn the_first_page_has_every_command_and_status() {
    let page = std::fs::read_to_string(common::root().join("README.md")).expect("the page");
    let help = printed(&["--help"]);
    for (name, _) in COMMANDS {
        assert!(page.contains(&format!("| `./barfigol {name} ")), "{name}");
    }
    let statuses = help.split("\nExit status:\n").nth(1).expect("statuses");
    let numbers = statuses
        .lines()
        .filter_map(|line| line.trim_start().split_once("  "));
    let numbers: Vec<&str> = numbers.map(|(number, _)| number).collect();
    assert_eq!(numbers, ["0", "1", "2", "3", "4"]);
    for number in numbers {
        assert_eq!(
            page.matches(&format!("\n| {number} | ")).count(),
            1,
            "{number}"
        );
    }
}
