//! The text of a table: its forms, and each error with its line.

use barfigol_format::{assemble, bytes_of, show, Problem, Row};

const P4: &str = "\
HD 1 0 8 0
VR 1 0 0 1
ND 1 0 1 0
ND 3 0 0 0
ND 9 0 0 1
ND 25 0 2 0
ND 24 0 3 0
CN 0 0 4 0
";

fn table(text: &str) -> Vec<u8> {
    assemble(text).unwrap_or_else(|error| panic!("{error}\n{text}"))
}

#[test]
fn lines_of_a_listing() {
    let bytes = table(P4);
    assert_eq!(bytes.len(), 8 * 12);
    assert_eq!(bytes[4 * 12..5 * 12], *b"ND\x09\0\0\0\0\0\x01\0\0\0");
}

#[test]
fn forms_of_the_same_table() {
    let lines: Vec<&str> = P4.lines().collect();
    let forms = [
        lines.join("\r\n"),
        lines.join("\n\n  \t\n"),
        lines.join("  \n"),
        lines.join(" \n"),
        lines.join("\t\n\t"),
        lines.join(" # a note\n"),
        lines.join("#a note\n# another\n   # and another\n"),
        lines.join("  a note, 7 of 7\n"),
        lines.join("\t7 7\n"),
        P4.replace(' ', "   "),
        P4.replace(' ', "\t"),
        P4.replace("ND", "\\x4eD").replace("CN", "\\x43\\x4E"),
        P4.replace("HD 1 0 8 0", "HD 1 0 ? 0"),
        format!("\u{feff}{P4}"),
        format!("# P4\n\n{P4}# the end"),
    ];
    let expected = table(P4);
    for form in forms {
        assert_eq!(table(&form), expected, "{form}");
    }
}

/// A note behind the last field may be anything, even if it is no text.
#[test]
fn notes_need_not_be_text() {
    let bytes = assemble(b"HD 1 0 1 0  \xff\xfe\x00 \x1b\n".as_slice());
    assert_eq!(bytes, Ok(bytes_of(&[Row::head(1)])));
}

#[test]
fn the_count_is_filled_in() {
    assert_eq!(table("HD 1 0 ? 0"), bytes_of(&[Row::head(1)]));
    // Each of them, wherever it stands; bytes that are no record do not count.
    let text = "HD 1 0 ? 0\nHD 1 0 ? 0\nbytes 00\n";
    let mut expected = bytes_of(&[Row::head(2), Row::head(2)]);
    expected.push(0);
    assert_eq!(table(text), expected);
}

#[test]
fn bytes_that_are_no_record() {
    assert_eq!(table("bytes 00fF10"), [0, 255, 16]);
    assert_eq!(table("bytes 41\nbytes 4243  and more"), *b"ABC");
    assert_eq!(table(""), []);
    assert_eq!(table("# nothing\n\n"), []);
}

#[test]
fn the_ends_of_each_field() {
    let text = "ND 0 0 -2147483648 2147483647\nND 255 255 0 -1\n";
    let rows = [
        Row::new(b"ND", 0, i32::MIN, i32::MAX),
        Row {
            aux: 255,
            ..Row::new(b"ND", 255, 0, -1)
        },
    ];
    assert_eq!(table(text), bytes_of(&rows));
}

/// Says how a line behind two good ones is at fault.
fn assert_error(line: &str, expected: &str) {
    let text = format!("HD 1 0 ? 0\n# a note\n{line}\nND no\n");
    let error = assemble(&text).expect_err(line);
    assert_eq!(error.line(), 3, "{line}");
    assert_eq!(error.to_string(), format!("line 3: {expected}"), "{line}");
    assert!(!error.to_string().chars().any(char::is_control));
}

#[test]
fn wrong_marks() {
    let rule = "is no mark: two characters, each printable or \\x and two hexadecimal digits";
    for (word, quoted) in [
        ("N", "'N'"),
        ("NDX", "'NDX'"),
        ("N\\x4", "'N\\\\x4'"),
        ("N\\y44", "'N\\\\y44'"),
        ("\\x4g44", "'\\\\x4g44'"),
        ("\\x4e\\x44\\x44", "'\\\\x4e\\\\x44\\\\x44'"),
        ("\\\\", "'\\\\\\\\'"),
        ("é", "'é'"),
        ("N\u{1b}", "'N\\u{1b}'"),
        ("\u{202e}D", "'\\u{202e}D'"),
        ("N\rD", "'N\\rD'"),
    ] {
        assert_error(&format!("{word} 9 0 0 1"), &format!("{quoted} {rule}"));
    }
    let long = "a".repeat(1_000_000);
    let quoted = format!("'{}..'", "a".repeat(80));
    assert_error(&long, &format!("{quoted} {rule}"));
}

#[test]
fn missing_fields() {
    let rule = "is missing: a line has mark, kind, aux, x and y";
    let fields = ["kind", "aux", "x", "y"];
    let words = ["ND", "9", "0", "0"];
    for (at, field) in fields.iter().enumerate() {
        let start = words[..=at].join(" ");
        for end in ["", " ", " # 1", "#1", "\r"] {
            assert_error(&format!("{start}{end}"), &format!("{field} {rule}"));
        }
    }
    assert_error("HD 1 0 ?", &format!("y {rule}"));
}

#[test]
fn numbers_out_of_range() {
    let byte = "a number from 0 to 255";
    let word = "a number from -2147483648 to 2147483647";
    let cases = [
        ("ND 256 0 0 0", format!("'256' is no kind: {byte}")),
        ("ND -1 0 0 0", format!("'-1' is no kind: {byte}")),
        ("ND add 0 0 0", format!("'add' is no kind: {byte}")),
        ("ND 9 256 0 0", format!("'256' is no aux: {byte}")),
        (
            "ND 9 0 2147483648 0",
            format!("'2147483648' is no x: {word}"),
        ),
        ("ND 9 0 1.5 0", format!("'1.5' is no x: {word}")),
        ("ND 9 0 ? 0", format!("'?' is no x: {word}")),
        ("HD 1 0 1 ?", format!("'?' is no y: {word}")),
        (
            "ND 9 0 0 -2147483649",
            format!("'-2147483649' is no y: {word}"),
        ),
        ("ND 9 0 0 0x10", format!("'0x10' is no y: {word}")),
    ];
    for (line, expected) in cases {
        assert_error(line, &expected);
    }
}

/// A sixth number is taken for a mistake, unless it is set off as a comment.
#[test]
fn more_than_five_fields() {
    let rule = "a comment has two spaces or # before it";
    assert_error("ND 9 0 0 1 7", &format!("'7' stands behind y: {rule}"));
    assert_error(
        "ND 9 0 0 1 node",
        &format!("'node' stands behind y: {rule}"),
    );
    assert_error("bytes 00 11", &format!("'11' stands behind bytes: {rule}"));
}

#[test]
fn wrong_bytes() {
    let rule = "pairs of hexadecimal digits";
    assert_error("bytes", &format!("nothing stands behind bytes: {rule}"));
    assert_error(
        "bytes # 00",
        &format!("nothing stands behind bytes: {rule}"),
    );
    assert_error("bytes 0", &format!("'0' is no bytes: {rule}"));
    assert_error("bytes 0g", &format!("'0g' is no bytes: {rule}"));
}

#[test]
fn errors_are_told_apart() {
    let problem = |text: &str| {
        let error = assemble(text).expect_err(text);
        error.problem().clone()
    };
    assert_eq!(problem("ND"), Problem::Missing("kind"));
    assert_eq!(problem("N"), Problem::Mark(String::from("'N'")));
    assert_eq!(problem("bytes"), Problem::NoBytes);
}

#[test]
fn shown_and_assembled_again() {
    let texts = [
        P4,
        "",
        "bytes 00\nHD 1 0 ? 0",
        "HD 1 0 ? 0\nND 9 0 5 2    node 6: node 5 div node 2\nVR 1 0 0 2    variable 0: 0..2",
        "\\x00\\xff 1 2 3 4 # no mark",
    ];
    for text in texts {
        let bytes = table(text);
        let shown = show(&bytes);
        assert_eq!(table(&shown), bytes, "{shown}");
        assert_eq!(show(&table(&shown)), shown);
    }
}
