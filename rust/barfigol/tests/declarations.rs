//! The declarations beside the library: the layout of an answer, calls in which
//! every argument and every field has a value of its own, and the safe calls
//! beside the plain ones.

use barfigol::raw::{self, Answer};
use barfigol::{check, evaluate, evaluate_into, translate, translate_into};
use barfigol::{Choice, Evaluation, Reading, Refusal, Totals, Verdict};
use barfigol_format::{Node, Table, ROW_BYTES};

const FILL: u8 = 0xa5;

/// Four variables v in 10..11, w in 20..21, b, z in 40..41 and three
/// constraints, which cost 8, 1 and 3 steps: ¬(1 div (v − 10) = 1), b, w < z.
fn table() -> Table {
    Table::new()
        .variable(10, 11)
        .variable(20, 21)
        .bool_variable()
        .variable(40, 41)
        .node(Node::constant(10))
        .node(Node::variable(0))
        .node(Node::subtract(1, 0))
        .node(Node::constant(1))
        .node(Node::div(3, 2))
        .node(Node::equal(4, 3))
        .node(Node::not(5))
        .node(Node::bool_variable(2))
        .node(Node::variable(1))
        .node(Node::variable(3))
        .node(Node::below(8, 9))
        .constraint(6)
        .constraint(7)
        .constraint(10)
}

/// An assignment under which the first constraint divides by 0.
const INSIDE: [i32; 4] = [10, 20, 1, 40];

#[test]
fn layout_of_an_answer() {
    let answer = Answer::default();
    let start = std::ptr::addr_of!(answer) as usize;
    let offsets = [
        std::ptr::addr_of!(answer.number) as usize - start,
        std::ptr::addr_of!(answer.record) as usize - start,
        std::ptr::addr_of!(answer.steps) as usize - start,
        std::ptr::addr_of!(answer.length) as usize - start,
        std::ptr::addr_of!(answer.all_true) as usize - start,
    ];
    assert_eq!(offsets, [0, 4, 8, 12, 16]);
    assert_eq!(std::mem::size_of::<Answer>(), 20);
}

#[test]
fn checks() {
    let sound = table().bytes();
    assert_eq!(raw::check(&sound), Answer::default());
    let short = raw::check(&sound[..sound.len() - ROW_BYTES]);
    assert_eq!((short.number, short.record), (3, 0));
    assert_eq!(raw::check(&[]).number, 1);
    let mut faulty = table();
    faulty.nodes[10] = Node::below(8, 10);
    let expected = Answer {
        number: 4,
        record: 15,
        ..Answer::default()
    };
    assert_eq!(raw::check(&faulty.bytes()), expected);
}

#[test]
fn evaluations() {
    let table = table().bytes();
    let mut verdicts = [FILL; 5];
    let expected = Answer {
        number: 10,
        record: 2,
        ..Answer::default()
    };
    let outside = [10, 22, 1, 40];
    let answer = raw::evaluate(3, &table, &outside, 13, &mut verdicts);
    assert_eq!((answer, verdicts), (expected, [FILL; 5]));
    let answer = raw::evaluate(3, &table, &INSIDE, 11, &mut verdicts);
    assert_eq!((answer.number, verdicts), (11, [FILL; 5]));
    let answer = raw::evaluate(3, &table, &INSIDE, 13, &mut verdicts[..2]);
    assert_eq!((answer.number, verdicts), (9, [FILL; 5]));
    let expected = Answer {
        steps: 12,
        length: 3,
        all_true: true,
        ..Answer::default()
    };
    let answer = raw::evaluate(3, &table, &INSIDE, 13, &mut verdicts);
    assert_eq!((answer, verdicts), (expected, [1, 1, 1, FILL, FILL]));
    let answer = raw::evaluate(2, &table, &INSIDE, 13, &mut verdicts);
    assert_eq!((answer.all_true, verdicts), (false, [2, 1, 1, FILL, FILL]));
}

#[test]
fn translations() {
    // HD, 4 VR, 31 nodes, 3 CN.
    const LENGTH: usize = 39 * ROW_BYTES;
    let mut out = [FILL; LENGTH + 7];
    let mut beyond = table();
    beyond.nodes[3] = Node::constant(2_000_000_001);
    let expected = Answer {
        number: 8,
        record: 8,
        ..Answer::default()
    };
    assert_eq!(raw::translate(3, &beyond.bytes(), &mut out), expected);
    assert_eq!(raw::translate(259, &table().bytes(), &mut out).number, 7);
    assert_eq!(out, [FILL; LENGTH + 7]);
    let expected = Answer {
        length: LENGTH as u32,
        ..Answer::default()
    };
    assert_eq!(raw::translate(3, &table().bytes(), &mut out), expected);
    assert_eq!(out[LENGTH..], [FILL; 7]);
    assert_eq!(raw::check(&out[..LENGTH]).number, 0);
}

#[test]
fn empty_slices() {
    // A table without variables and constraints takes two empty slices, and an
    // empty table is refused.
    let head = Table::new().bytes();
    for reading in Reading::ALL {
        let totals = Totals {
            written: 0,
            steps: 0,
            all_true: true,
        };
        let found = evaluate_into(reading, &head, &[], 0, &mut []);
        assert_eq!(found, Ok(totals));
        let evaluation = Evaluation {
            verdicts: Vec::new(),
            steps: 0,
            all_true: true,
        };
        assert_eq!(evaluate(reading, &head, &[], 0), Ok(evaluation));
        assert_eq!(evaluate(reading, &[], &[], 0), Err(Refusal::Length));
        assert_eq!(translate(reading, &[]), Err(Refusal::Length));
        let refusal = translate_into(reading, &[], &mut []);
        assert_eq!(refusal, Err(Refusal::Length));
        let refusal = translate_into(reading, &head, &mut []);
        assert_eq!(refusal, Err(Refusal::Room));
    }
}

#[test]
fn readings_and_choices() {
    let choices = Reading::ALL.map(Choice::from);
    assert_eq!(choices, [Choice(1), Choice(2), Choice(3)]);
    let table = table().bytes();
    let first = Reading::ALL.map(|reading| {
        let found = evaluate(reading, &table, &INSIDE, 12).expect("a sound table");
        assert_eq!(found.verdicts.len(), 3);
        found.verdicts[0]
    });
    let undefined = Verdict::Undefined;
    assert_eq!(first, [undefined, undefined, Verdict::True]);
    for other in [0, 4, 257, 259, u32::MAX] {
        let refusal = evaluate(Choice(other), &table, &INSIDE, 12);
        assert_eq!(refusal, Err(Refusal::Choice));
        assert_eq!(Reading::try_from(other), Err(Refusal::Choice));
    }
}

#[test]
fn words_and_numbers_of_readings() {
    for reading in Reading::ALL {
        let word = reading.to_string();
        let number = reading.number();
        let upper = word.to_uppercase();
        let title = format!("{}{}", &upper[..1], &word[1..]);
        for text in [word, upper, title, number.to_string()] {
            assert_eq!(text.parse(), Ok(reading), "{text}");
        }
        assert_eq!(Reading::try_from(number), Ok(reading));
    }
    for text in [
        "",
        "0",
        "4",
        "01",
        "+1",
        "1 ",
        " strict",
        "strictly",
        "klee\u{1b}[0m",
    ] {
        let error = text.parse::<Reading>().expect_err(text).to_string();
        assert!(error.ends_with("is no reading: strict, kleene, relational, or 1 to 3"));
        assert!(!error.chars().any(char::is_control), "{error:?}");
    }
}

#[test]
fn bytes_of_verdicts() {
    for byte in 0..=u8::MAX {
        let verdict = Verdict::from_byte(byte);
        assert_eq!(
            verdict.map(Verdict::byte),
            Some(byte).filter(|&byte| byte < 3)
        );
    }
    let words = Verdict::ALL.map(|verdict| verdict.to_string());
    assert_eq!(words, ["false", "true", "undefined"]);
}

/// Which records go with a number: any, the head's number for none, or none.
const NAMES_A_RECORD: [u32; 5] = [2, 3, 4, 5, 6];
const MAY_NAME_A_RECORD: [u32; 2] = [8, 10];

#[test]
fn numbers_and_records_of_refusals() {
    for number in 0..=13 {
        for record in [0, 1, 2, 4_999, u32::MAX] {
            let refusal = Refusal::new(number, record);
            let pair = refusal.map(|refusal| (refusal.number(), refusal.record().unwrap_or(0)));
            let known = (1..=11).contains(&number);
            let names = NAMES_A_RECORD.contains(&number);
            let may_name = MAY_NAME_A_RECORD.contains(&number);
            let is_one = known && (record == 0 || names || may_name);
            assert_eq!(pair, Some((number, record)).filter(|_| is_one));
            if let Some(refusal) = refusal {
                assert_eq!(refusal.record().is_some(), names || record != 0);
            }
        }
    }
}

/// The variants have the names of the header's constants.
#[test]
fn names_of_refusals() {
    let header = concat!(env!("CARGO_MANIFEST_DIR"), "/../../include/barfigol.h");
    let header = std::fs::read_to_string(header).expect("the header");
    for number in 1..=11 {
        let refusal = Refusal::new(number, 0).expect("a refusal");
        let name = format!("{refusal:?}");
        let name = name.split(' ').next().unwrap_or("");
        let constant = |line: &str| {
            let (constant, value) = line.trim().trim_end_matches(',').split_once(" = ")?;
            let value: u32 = value.parse().ok()?;
            let words = constant.strip_prefix("BARFIGOL_")?.replace('_', "");
            Some((words, value))
        };
        let wanted = (name.to_uppercase(), number);
        let found = header.lines().filter_map(constant).any(|it| it == wanted);
        assert!(found, "{wanted:?}");
    }
}

#[test]
fn every_number_has_a_sentence() {
    let refusals = (1..=11).filter_map(|number| Refusal::new(number, 0));
    let sentences: Vec<String> = refusals.map(|refusal| refusal.to_string()).collect();
    assert_eq!(sentences.len(), 11);
    for (place, sentence) in sentences.iter().enumerate() {
        assert!(sentence.starts_with(&format!("refused with {}", place + 1)));
        let reason = |text: &str| text.split(": ").nth(1).map(String::from);
        let same = |other: &&String| reason(other.as_str()) == reason(sentence);
        assert_eq!(sentences.iter().filter(same).count(), 1, "{sentence}");
    }
    let unsound = check(&[b'x'; 24]).unwrap_err().to_string();
    assert!(unsound.starts_with("refused with 2 at record 0: "));
    let call = Refusal::Budget.to_string();
    assert_eq!(call, "refused with 11: the steps are more than the budget");
}
