//! The three readings, and the number by which a caller chooses one.

use crate::Refusal;
use std::error::Error;
use std::fmt;
use std::str::FromStr;

/// How a table with undefined parts is read.
///
/// ```
/// use barfigol::{Reading, Refusal};
///
/// assert_eq!("Kleene".parse(), Ok(Reading::Kleene));
/// assert_eq!("3".parse(), Ok(Reading::Relational));
/// assert_eq!(Reading::Strict.to_string(), "strict");
/// assert_eq!(Reading::try_from(2), Ok(Reading::Kleene));
/// assert_eq!(Reading::try_from(259), Err(Refusal::Choice));
/// ```
#[derive(Clone, Copy, Debug, PartialEq, Eq, Hash)]
pub enum Reading {
    /// Whatever has an undefined part is undefined.
    Strict,
    /// Kleene's tables: `true or undefined` is true.
    Kleene,
    /// A comparison or lookup with an undefined part is false.
    Relational,
}

impl Reading {
    /// All readings, in the order of their numbers.
    pub const ALL: [Reading; 3] = [Reading::Strict, Reading::Kleene, Reading::Relational];

    /// The number that chooses the reading: 1, 2 or 3.
    pub const fn number(self) -> u32 {
        match self {
            Reading::Strict => 1,
            Reading::Kleene => 2,
            Reading::Relational => 3,
        }
    }

    /// The reading's word, in small letters: `strict`, `kleene`, `relational`.
    pub const fn word(self) -> &'static str {
        match self {
            Reading::Strict => "strict",
            Reading::Kleene => "kleene",
            Reading::Relational => "relational",
        }
    }
}

impl fmt::Display for Reading {
    /// The reading's [word](Reading::word).
    fn fmt(&self, f: &mut fmt::Formatter<'_>) -> fmt::Result {
        f.pad(self.word())
    }
}

impl FromStr for Reading {
    type Err = NoReading;

    /// The reading with this word, whatever its letters' case, or with the
    /// number `1`, `2` or `3`.
    fn from_str(text: &str) -> Result<Reading, NoReading> {
        let is_meant = |reading: &Reading| {
            text.eq_ignore_ascii_case(reading.word()) || text == reading.number().to_string()
        };
        let meant = Reading::ALL.into_iter().find(is_meant);
        meant.ok_or_else(|| NoReading(text.to_string()))
    }
}

impl TryFrom<u32> for Reading {
    type Error = Refusal;

    /// The reading with this number. Other numbers are refused as every call
    /// refuses them, with 7.
    fn try_from(number: u32) -> Result<Reading, Refusal> {
        let has_number = |reading: &Reading| reading.number() == number;
        let found = Reading::ALL.into_iter().find(has_number);
        found.ok_or(Refusal::Choice)
    }
}

/// A text that names no reading.
///
/// ```
/// let error = "strickt".parse::<barfigol::Reading>().unwrap_err();
/// assert_eq!(
///     error.to_string(),
///     "'strickt' is no reading: strict, kleene, relational, or 1 to 3"
/// );
/// ```
#[derive(Clone, Debug, PartialEq, Eq)]
pub struct NoReading(String);

impl fmt::Display for NoReading {
    /// Control characters of the text are written so that they are seen.
    fn fmt(&self, f: &mut fmt::Formatter<'_>) -> fmt::Result {
        let text = self.0.escape_debug();
        write!(
            f,
            "'{text}' is no reading: strict, kleene, relational, or 1 to 3"
        )
    }
}

impl Error for NoReading {}

/// The number that chooses a reading: 1 strict, 2 Kleene, 3 relational. Any
/// other number is refused with 7.
///
/// ```
/// use barfigol::{Choice, Reading};
///
/// assert_eq!(Choice::from(Reading::Kleene), Choice(2));
/// ```
#[derive(Clone, Copy, Debug, PartialEq, Eq, Hash)]
pub struct Choice(pub u32);

impl From<Reading> for Choice {
    fn from(reading: Reading) -> Choice {
        Choice(reading.number())
    }
}
