//! The listing program's text: each record of a translation on a line.

use crate::record::{records, Record, MOST_BYTES};

/// The text that the listing program prints for its standard input.
pub(crate) fn listing(input: &[u8]) -> Vec<u8> {
    let (choice, table) = match input.split_first() {
        Some((&first, table)) => (digit(first), table),
        None => (0, input),
    };
    let mut out = vec![0; MOST_BYTES];
    let answer = crate::translate(choice, table, &mut out);
    if answer.number != 0 {
        return format!("refused {} {}\n", answer.number, answer.record).into_bytes();
    }
    let mut text = Vec::new();
    for record in records(&out[..answer.length as usize]) {
        write_line(&mut text, record);
    }
    text
}

/// The choice that a byte stands for: a digit's, or 0.
fn digit(byte: u8) -> u32 {
    match byte {
        b'0'..=b'9' => u32::from(byte - b'0'),
        _ => 0,
    }
}

fn write_line(text: &mut Vec<u8>, record: Record) {
    let Record {
        mark,
        kind,
        aux,
        x,
        y,
    } = record;
    text.extend_from_slice(&mark);
    text.extend_from_slice(format!(" {kind} {aux} {x} {y}\n").as_bytes());
}
