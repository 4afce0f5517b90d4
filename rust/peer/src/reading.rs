//! The three readings.

use crate::answer::{Reason, Refusal};

/// How a table with undefined parts is read.
#[derive(Clone, Copy, Debug, PartialEq, Eq)]
pub(crate) enum Reading {
    Strict,
    Kleene,
    Relational,
}

impl Reading {
    /// The reading of a choice: 1 strict, 2 Kleene, 3 relational.
    pub fn chosen(choice: u32) -> Result<Reading, Refusal> {
        match choice {
            1 => Ok(Reading::Strict),
            2 => Ok(Reading::Kleene),
            3 => Ok(Reading::Relational),
            _ => Err(Refusal::of_call(Reason::Choice)),
        }
    }
}
