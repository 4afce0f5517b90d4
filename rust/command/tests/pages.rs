//! The pages for the user say what the command answers.
//!
//! Blocks marked `console` hold commands after `$ `, continued after `> `, and
//! below each what it prints. They are run in a folder that has the command and
//! the examples.

mod common;

use barfigol_format::{assemble, Node, Table};
use common::{assert_done, example, folder, root, run, run_with, COMMAND};
use std::fs;
use std::path::{Path, PathBuf};
use std::process::Command;

/// A command of a page, and what it is said to print.
struct Said {
    command: String,
    printed: String,
}

fn page(name: &str) -> String {
    fs::read_to_string(root().join(name)).expect(name)
}

/// The fenced blocks of a page that have a certain word after the fence.
fn blocks(page: &str, word: &str) -> Vec<String> {
    let fence = format!("\n```{word}\n");
    let after = page.split(fence.as_str()).skip(1);
    after
        .map(|rest| rest.split("```").next().unwrap_or("").to_string())
        .collect()
}

/// The commands of a block.
fn commands(block: &str) -> Vec<Said> {
    let mut all: Vec<Said> = Vec::new();
    for line in block.lines() {
        if let Some(command) = line.strip_prefix("$ ") {
            all.push(Said {
                command: format!("{command}\n"),
                printed: String::new(),
            });
            continue;
        }
        let last = all.last_mut().expect("a block begins with a command");
        match line.strip_prefix('>') {
            Some(more) => last.command.push_str(&format!("{more}\n")),
            None => last.printed.push_str(&format!("{line}\n")),
        }
    }
    all
}

/// Runs the commands one after the other in one shell, and gives what each
/// prints. A control character stands between them.
fn run_all(folder: &Path, said: &[Said]) -> Vec<String> {
    let mut script = String::from("exec 2>&1\n");
    for said in said {
        script.push_str(&format!("{}printf '\\036'\n", said.command));
    }
    let output = Command::new("sh")
        .args(["-c", &script])
        .current_dir(folder)
        .output()
        .expect("a shell");
    let text = String::from_utf8(output.stdout).expect("text");
    text.split_terminator('\u{1e}').map(String::from).collect()
}

/// Says that the commands of a page print what it says, and gives the folder
/// that they ran in.
#[cfg(unix)]
fn assert_page(name: &str) -> PathBuf {
    use std::os::unix::fs::symlink;
    let folder = folder(&name.replace('/', "-"));
    symlink(COMMAND, folder.join("barfigol")).expect("a link");
    symlink(root().join("examples"), folder.join("examples")).expect("a link");
    let blocks = blocks(&page(name), "console");
    assert!(!blocks.is_empty(), "{name} has no commands");
    for block in blocks {
        let said = commands(&block);
        let printed = run_all(&folder, &said);
        assert_eq!(printed.len(), said.len(), "{name}\n{block}");
        for (said, printed) in said.iter().zip(printed) {
            assert_eq!(printed, said.printed, "{name}\n{}", said.command);
        }
    }
    folder
}

/// Says that a folder has the command and the examples, and nothing else.
#[cfg(unix)]
fn assert_nothing_left(folder: &Path) {
    let entries = fs::read_dir(folder).expect("the folder is there");
    let mut names: Vec<_> = entries
        .map(|entry| entry.expect("an entry").file_name())
        .collect();
    names.sort();
    assert_eq!(names, ["barfigol", "examples"]);
}

#[cfg(unix)]
#[test]
fn the_page_of_the_placement_model() {
    assert_nothing_left(&assert_page("docs/PLACEMENT.md"));
}

#[cfg(unix)]
#[test]
fn the_page_of_the_readings() {
    assert_nothing_left(&assert_page("docs/READINGS.md"));
}

#[cfg(unix)]
#[test]
fn the_page_of_the_table() {
    assert_nothing_left(&assert_page("docs/TABLE.md"));
}

#[cfg(unix)]
#[test]
fn the_first_page() {
    assert_page("README.md");
}

/// The rows on connectives are what the command answers, where u is 1 div 0 = 1.
#[test]
fn the_connectives_of_the_readings() {
    let page = page("docs/READINGS.md");
    let nodes = [
        Node::constant(1),
        Node::constant(0),
        Node::div(0, 1),
        Node::equal(2, 0),
        Node::truth(1),
        Node::truth(0),
    ];
    let (u, yes, no) = (3, 4, 5);
    let rows = [
        // The same as u alone, in every reading.
        ("u", Node::and(u, u)),
        ("¬u", Node::not(u)),
        ("true ∨ u", Node::or(yes, u)),
        ("false ∨ u", Node::or(no, u)),
        ("false ∧ u", Node::and(no, u)),
        ("false → u", Node::implies(no, u)),
        ("u → false", Node::implies(u, no)),
        ("u ↔ u", Node::iff(u, u)),
    ];
    for (text, node) in rows {
        let table = Table::new().nodes(&nodes).node(node).constraint(6).bytes();
        let verdict = |reading: &str| {
            let ran = run_with(&["evaluate", reading, "-"], &table);
            ran.out.lines().next().unwrap_or("").to_string()
        };
        let verdicts = ["strict", "kleene", "relational"].map(verdict);
        let row = format!("\n| {text} | {} |\n", verdicts.join(" | "));
        assert!(page.contains(&row), "{row}");
    }
}

/// The records of the pages are texts of tables: those of the files.
#[test]
fn the_records_of_the_pages() {
    let blocks_of = |name: &str| blocks(&page(name), "records");
    assert_eq!(blocks_of("docs/TABLE.md"), [page("examples/shelf.txt")]);
    let shelf = assemble(page("examples/shelf.txt")).expect("a table");
    assert_done(&run_with(&["check", "-"], &shelf), "sound\n");
    let placement = fs::read(example("placement.table")).expect("a table");
    let records = blocks_of("docs/PLACEMENT.md");
    let tables: Vec<_> = records.iter().map(assemble).collect();
    assert_eq!(tables, [Ok(placement)]);
}

/// The first page has the listing that its first command prints.
#[test]
fn the_listing_of_the_first_page() {
    let page = page("README.md");
    assert!(page.contains("\n    ./barfigol list relational examples/p4.table\n"));
    assert!(page.contains("\n    ./test\n"));
    let is_record = |line: &&str| {
        let marks = ["HD ", "VR ", "ND ", "CN "];
        marks.iter().any(|mark| line.starts_with(mark))
    };
    let listing: String = page
        .lines()
        .filter_map(|line| line.strip_prefix("    "))
        .filter(is_record)
        .map(|line| {
            line.split_whitespace()
                .take(5)
                .collect::<Vec<_>>()
                .join(" ")
                + "\n"
        })
        .collect();
    assert_done(
        &run(&["list", "relational", &example("p4.table")]),
        &listing,
    );
}
