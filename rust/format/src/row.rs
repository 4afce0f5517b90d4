//! Records as rows of plain fields, faulty ones included.

use crate::words::spelled;
use std::fmt;

/// The bytes of one record.
pub const ROW_BYTES: usize = 12;

/// One record, its fields taken apart and none of them tested.
///
/// ```
/// let row = barfigol_format::Row::new(b"ND", 9, 0, 7);
/// assert_eq!(row.to_string(), "ND 9 0 0 7");
/// ```
#[derive(Clone, Copy, Debug, PartialEq, Eq)]
pub struct Row {
    /// The two letters of the mark.
    pub mark: [u8; 2],
    /// The kind.
    pub kind: u8,
    /// The field that is always 0 in a sound table.
    pub aux: u8,
    /// The first number.
    pub x: i32,
    /// The second number.
    pub y: i32,
}

impl Row {
    /// A row with aux 0.
    pub const fn new(mark: &[u8; 2], kind: u8, x: i32, y: i32) -> Row {
        Row {
            mark: *mark,
            kind,
            aux: 0,
            x,
            y,
        }
    }

    /// The head of a table with this many records.
    pub const fn head(records: i32) -> Row {
        Row::new(b"HD", 1, records, 0)
    }

    fn read(bytes: &[u8]) -> Row {
        let number = |at: usize| {
            i32::from_le_bytes([bytes[at], bytes[at + 1], bytes[at + 2], bytes[at + 3]])
        };
        Row {
            mark: [bytes[0], bytes[1]],
            kind: bytes[2],
            aux: bytes[3],
            x: number(4),
            y: number(8),
        }
    }
}

impl fmt::Display for Row {
    /// Mark, kind, aux, x and y, as a listing has them.
    fn fmt(&self, f: &mut fmt::Formatter<'_>) -> fmt::Result {
        let mark = spelled(self.mark);
        write!(f, "{mark} {} {} {} {}", self.kind, self.aux, self.x, self.y)
    }
}

/// The bytes of some rows. The head's count is taken as it is.
pub fn bytes_of(rows: &[Row]) -> Vec<u8> {
    let mut bytes = Vec::with_capacity(rows.len() * ROW_BYTES);
    for row in rows {
        bytes.extend_from_slice(&row.mark);
        bytes.extend_from_slice(&[row.kind, row.aux]);
        bytes.extend_from_slice(&row.x.to_le_bytes());
        bytes.extend_from_slice(&row.y.to_le_bytes());
    }
    bytes
}

/// The rows of a table. Bytes after the last whole record are left out.
pub fn rows_of(bytes: &[u8]) -> Vec<Row> {
    bytes.chunks_exact(ROW_BYTES).map(Row::read).collect()
}

/// The bytes after the last whole record.
pub fn rest_of(bytes: &[u8]) -> &[u8] {
    bytes.chunks_exact(ROW_BYTES).remainder()
}

/// A table as lines such as `ND 9 0 0 7`. Bytes after the last whole record
/// stand in hexadecimal on a line of their own. [`assemble`](crate::assemble)
/// reads every such text back.
///
/// ```
/// use barfigol_format::{pretty, Table};
///
/// let mut table = Table::new().variable(0, 1).bytes();
/// assert_eq!(pretty(&table), "HD 1 0 2 0\nVR 1 0 0 1\n");
/// table.truncate(14);
/// assert_eq!(pretty(&table), "HD 1 0 2 0\nbytes 5652\n");
/// ```
pub fn pretty(bytes: &[u8]) -> String {
    let rows = rows_of(bytes);
    let mut text: String = rows.iter().map(|row| format!("{row}\n")).collect();
    let rest = rest_of(bytes);
    if !rest.is_empty() {
        text.push_str(&format!("{}\n", rest_line(rest)));
    }
    text
}

/// The line for bytes that are no whole record.
pub(crate) fn rest_line(rest: &[u8]) -> String {
    format!("{REST_WORD} {}", hex(rest))
}

/// The first word of the line for bytes that are no whole record.
pub(crate) const REST_WORD: &str = "bytes";

/// Bytes as hexadecimal digits, `-` for none.
///
/// ```
/// assert_eq!(barfigol_format::hex(&[1, 255]), "01ff");
/// assert_eq!(barfigol_format::hex(&[]), "-");
/// ```
pub fn hex(bytes: &[u8]) -> String {
    if bytes.is_empty() {
        return String::from("-");
    }
    bytes.iter().map(|byte| format!("{byte:02x}")).collect()
}
