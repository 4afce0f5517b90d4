//! Why a text is no table.

use std::error::Error;
use std::fmt;

/// Why a text is no table: the first line that is at fault.
#[derive(Clone, Debug, PartialEq, Eq)]
pub struct AssembleError {
    pub(super) line: usize,
    pub(super) problem: Problem,
}

impl AssembleError {
    /// The number of the line, from 1.
    pub fn line(&self) -> usize {
        self.line
    }

    /// What is wrong with the line.
    pub fn problem(&self) -> &Problem {
        &self.problem
    }
}

impl fmt::Display for AssembleError {
    fn fmt(&self, f: &mut fmt::Formatter<'_>) -> fmt::Result {
        write!(f, "line {}: {}", self.line, self.problem)
    }
}

impl Error for AssembleError {}

/// What is wrong with a line. Texts are in quotes, ready to be printed.
#[derive(Clone, Debug, PartialEq, Eq)]
pub enum Problem {
    /// The first word is no mark.
    Mark(String),
    /// A field is missing.
    Missing(&'static str),
    /// A field is no number of its range.
    Number {
        /// The field's name.
        field: &'static str,
        /// What stands there.
        text: String,
        /// The least number.
        low: i32,
        /// The greatest number.
        high: i32,
    },
    /// A word stands behind the last field, with a single space before it.
    Surplus(&'static str, String),
    /// The word `bytes` stands alone.
    NoBytes,
    /// The word behind `bytes` is no bytes.
    Bytes(String),
}

impl fmt::Display for Problem {
    fn fmt(&self, f: &mut fmt::Formatter<'_>) -> fmt::Result {
        match self {
            Problem::Mark(text) => write!(
                f,
                "{text} is no mark: two characters, each printable or \\x and two hexadecimal digits"
            ),
            Problem::Missing(field) => {
                write!(f, "{field} is missing: a line has mark, kind, aux, x and y")
            }
            Problem::Number {
                field,
                text,
                low,
                high,
            } => write!(f, "{text} is no {field}: a number from {low} to {high}"),
            Problem::Surplus(field, text) => write!(
                f,
                "{text} stands behind {field}: a comment has two spaces or # before it"
            ),
            Problem::NoBytes => write!(f, "nothing stands behind bytes: {PAIRS}"),
            Problem::Bytes(text) => write!(f, "{text} is no bytes: {PAIRS}"),
        }
    }
}

/// How bytes that are no record are written.
const PAIRS: &str = "pairs of hexadecimal digits";
