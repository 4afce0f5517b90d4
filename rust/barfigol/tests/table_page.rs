//! docs/TABLE.md says what the code has: kinds, refusals and limits.

use barfigol::Refusal;
use barfigol_format::kinds::KINDS;
use barfigol_format::limits::{
    INDEX_LIMIT, MOST_ARRAYS, MOST_BYTES, MOST_ELEMENTS, MOST_RECORDS, MOST_SLOTS,
    MOST_SLOT_VALUES, MOST_VARIABLES, VALUE_LIMIT,
};
use barfigol_format::words::grouped;
use barfigol_format::ROW_BYTES;
use std::fs;
use std::path::Path;

fn page() -> String {
    let root = Path::new(env!("CARGO_MANIFEST_DIR")).join("../..");
    fs::read_to_string(root.join("docs/TABLE.md")).expect("the page")
}

/// The rows of the table whose first column has this head, each by its cells.
fn rows_under(page: &str, head: &str) -> Vec<Vec<String>> {
    let start = format!("| {head} |");
    let lines = page.lines().skip_while(|line| !line.starts_with(&start));
    let rows = lines.take_while(|line| line.starts_with('|')).skip(2);
    // A stroke within a cell is written with a backslash before it.
    let cells = |line: &str| {
        let line = line.replace("\\|", "\u{1}");
        let parts = line.trim_matches('|').split('|');
        parts
            .map(|cell| cell.trim().replace('\u{1}', "|"))
            .collect()
    };
    rows.map(cells).collect()
}

#[test]
fn the_kinds_of_nodes() {
    let rows = rows_under(&page(), "Kind");
    let written: Vec<Vec<String>> = rows.iter().map(|row| row[..5].to_vec()).collect();
    let kinds: Vec<Vec<String>> = KINDS
        .iter()
        .map(|kind| {
            vec![
                kind.number.to_string(),
                kind.written("x", "y"),
                kind.x.to_string(),
                kind.y.to_string(),
                kind.yields.to_string(),
            ]
        })
        .collect();
    assert_eq!(written, kinds);
}

#[test]
fn the_numbers_of_refusals() {
    let rows = rows_under(&page(), "Number");
    let written: Vec<Vec<String>> = rows.iter().map(|row| row[..2].to_vec()).collect();
    let refusals: Vec<Vec<String>> = (1..=11)
        .map(|number| {
            let refusal = Refusal::new(number, 0).expect("a refusal");
            vec![number.to_string(), refusal.reason().to_string()]
        })
        .collect();
    assert_eq!(written, refusals);
}

#[test]
fn the_limits() {
    let page = page();
    let sentences = [
        format!("records of {ROW_BYTES} bytes"),
        format!(
            "{} bytes: {} records",
            grouped(MOST_BYTES as u64),
            grouped(MOST_RECORDS as u64)
        ),
        format!("| at most {MOST_VARIABLES} VR |"),
        format!(
            "at most {MOST_SLOTS}, each of at most {} values",
            grouped(MOST_SLOT_VALUES as u64)
        ),
        format!(
            "its elements, 1 to {} | at most {MOST_ARRAYS} |",
            grouped(MOST_ELEMENTS as u64)
        ),
        format!("lie within ±{}", grouped(INDEX_LIMIT as u64)),
        format!("goes beyond ±{}", grouped(VALUE_LIMIT as u64)),
    ];
    for sentence in sentences {
        assert!(page.contains(&sentence), "{sentence}");
    }
}
