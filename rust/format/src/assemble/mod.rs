//! A table from its text.

mod error;

pub use error::{AssembleError, Problem};

use crate::printable::quoted;
use crate::row::REST_WORD;
use crate::{bytes_of, Row, ROW_BYTES};

/// The fields of a line, in order.
const FIELDS: [&str; 5] = ["mark", "kind", "aux", "x", "y"];

/// The table that some lines describe. Each has mark, kind, aux, x and y, with
/// blanks between them, as [`show`](crate::show) and a listing have them.
///
/// A comment stands behind `#`, or behind y and two spaces or a tab. Empty lines
/// are left out. A byte of a mark may be written `\x` and two hexadecimal
/// digits. `?` for the x of HD is the number of records. Bytes that are no
/// record stand behind the word `bytes`, in hexadecimal. Nothing is checked
/// beyond the range of each field.
///
/// ```
/// let text = "
///     HD 1 0 ? 0    # y in 0..1, and true
///     VR 1 0 0 1    variable 0: y
///     ND 2 0 1 0    # node 0
///     CN 0 0 0 0
/// ";
/// let table = barfigol_format::assemble(text)?;
/// assert_eq!(table.len(), 4 * 12);
/// assert_eq!(table[4], 4);
///
/// let error = barfigol_format::assemble("HD 1 0 1 0\nND 300 0 0 0").unwrap_err();
/// assert_eq!(error.to_string(), "line 2: '300' is no kind: a number from 0 to 255");
/// # Ok::<(), barfigol_format::AssembleError>(())
/// ```
///
/// # Errors
///
/// Where a line is none of these, with its number.
pub fn assemble(text: impl AsRef<[u8]>) -> Result<Vec<u8>, AssembleError> {
    let text = text.as_ref();
    // Some editors begin a file with this mark.
    let text = text.strip_prefix(b"\xef\xbb\xbf").unwrap_or(text);
    let mut bytes = Vec::new();
    let mut heads = Vec::new();
    for (place, line) in text.split(|&byte| byte == b'\n').enumerate() {
        let read = read_line(line).map_err(|problem| AssembleError {
            line: place + 1,
            problem,
        })?;
        match read {
            Line::Nothing => {}
            Line::Record(row) => bytes.extend(bytes_of(&[row])),
            Line::UncountedHead(row) => {
                heads.push(bytes.len());
                bytes.extend(bytes_of(&[row]));
            }
            Line::Bytes(more) => bytes.extend(more),
        }
    }
    let records = i32::try_from(bytes.len() / ROW_BYTES).unwrap_or(i32::MAX);
    for head in heads {
        bytes[head + 4..head + 8].copy_from_slice(&records.to_le_bytes());
    }
    Ok(bytes)
}

/// What a line has.
enum Line {
    /// A comment at most.
    Nothing,
    /// A record.
    Record(Row),
    /// A head whose count is to be filled in.
    UncountedHead(Row),
    /// Bytes that are no record.
    Bytes(Vec<u8>),
}

fn read_line(line: &[u8]) -> Result<Line, Problem> {
    let line = line.strip_suffix(b"\r").unwrap_or(line);
    let comment = line.iter().position(|&byte| byte == b'#');
    let mut words = Words {
        rest: &line[..comment.unwrap_or(line.len())],
    };
    match words.next_word() {
        None => Ok(Line::Nothing),
        Some(word) if word == REST_WORD.as_bytes() => read_rest(words),
        Some(word) => read_record(read_mark(word)?, words),
    }
}

/// Bytes that are no record, behind their first word.
fn read_rest(mut words: Words) -> Result<Line, Problem> {
    let digits = words.next_word().ok_or(Problem::NoBytes)?;
    let bytes = from_hex(digits).ok_or_else(|| Problem::Bytes(quoted(digits)))?;
    words.end(REST_WORD)?;
    Ok(Line::Bytes(bytes))
}

/// A record, behind its mark.
fn read_record(mark: [u8; 2], mut words: Words) -> Result<Line, Problem> {
    let kind = read_number(&mut words, 1, 0, 255)? as u8;
    let aux = read_number(&mut words, 2, 0, 255)? as u8;
    let is_uncounted = mark == *b"HD" && words.clone().next_word() == Some(b"?".as_slice());
    let x = if is_uncounted {
        words.next_word();
        0
    } else {
        read_number(&mut words, 3, i32::MIN, i32::MAX)?
    };
    let y = read_number(&mut words, 4, i32::MIN, i32::MAX)?;
    words.end(FIELDS[4])?;
    let row = Row {
        mark,
        kind,
        aux,
        x,
        y,
    };
    Ok(if is_uncounted {
        Line::UncountedHead(row)
    } else {
        Line::Record(row)
    })
}

/// The words of a line that are not read yet.
#[derive(Clone)]
struct Words<'a> {
    rest: &'a [u8],
}

impl<'a> Words<'a> {
    fn next_word(&mut self) -> Option<&'a [u8]> {
        let start = self.rest.iter().position(|&byte| !is_blank(byte))?;
        let rest = &self.rest[start..];
        let length = rest.iter().position(|&byte| is_blank(byte));
        let (word, rest) = rest.split_at(length.unwrap_or(rest.len()));
        self.rest = rest;
        Some(word)
    }

    /// Says that nothing but a comment is left behind a field.
    fn end(mut self, field: &'static str) -> Result<(), Problem> {
        let is_set_off = self.rest.starts_with(b"  ") || self.rest.starts_with(b"\t");
        match self.next_word() {
            Some(word) if !is_set_off => Err(Problem::Surplus(field, quoted(word))),
            _ => Ok(()),
        }
    }
}

fn is_blank(byte: u8) -> bool {
    byte == b' ' || byte == b'\t'
}

/// The mark that a word spells.
fn read_mark(word: &[u8]) -> Result<[u8; 2], Problem> {
    let no_mark = || Problem::Mark(quoted(word));
    let (first, rest) = read_letter(word).ok_or_else(no_mark)?;
    let (second, rest) = read_letter(rest).ok_or_else(no_mark)?;
    if !rest.is_empty() {
        return Err(no_mark());
    }
    Ok([first, second])
}

/// The first letter of a mark, and the rest of its word.
fn read_letter(word: &[u8]) -> Option<(u8, &[u8])> {
    match word {
        [b'\\', b'x', high, low, rest @ ..] => {
            let byte = from_hex(&[*high, *low])?;
            Some((byte[0], rest))
        }
        [b'\\', ..] => None,
        [byte, rest @ ..] if byte.is_ascii_graphic() => Some((*byte, rest)),
        _ => None,
    }
}

/// The number of a field.
fn read_number(words: &mut Words, field: usize, low: i32, high: i32) -> Result<i32, Problem> {
    let name = FIELDS[field];
    let word = words.next_word().ok_or(Problem::Missing(name))?;
    let number = std::str::from_utf8(word)
        .ok()
        .and_then(|text| text.parse().ok());
    let number = number.filter(|number| (low..=high).contains(number));
    number.ok_or_else(|| Problem::Number {
        field: name,
        text: quoted(word),
        low,
        high,
    })
}

/// The bytes that pairs of hexadecimal digits stand for, at least one.
fn from_hex(digits: &[u8]) -> Option<Vec<u8>> {
    if digits.is_empty() || digits.len() % 2 != 0 {
        return None;
    }
    let digit = |&letter: &u8| char::from(letter).to_digit(16);
    let pair = |pair: &[u8]| Some((digit(&pair[0])? * 16 + digit(&pair[1])?) as u8);
    digits.chunks(2).map(pair).collect()
}
