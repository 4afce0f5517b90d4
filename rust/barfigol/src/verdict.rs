//! What a constraint is worth.

use std::fmt;

/// What a constraint is worth under an assignment.
///
/// ```
/// use barfigol::Verdict;
///
/// assert_eq!(Verdict::from_byte(2), Some(Verdict::Undefined));
/// assert_eq!(Verdict::Undefined.byte(), 2);
/// assert_eq!(Verdict::True.to_string(), "true");
/// ```
#[derive(Clone, Copy, Debug, PartialEq, Eq, Hash)]
pub enum Verdict {
    /// It does not hold.
    False,
    /// It holds.
    True,
    /// It is worth nothing: a part of it is undefined.
    Undefined,
}

impl Verdict {
    /// All verdicts, in the order of their bytes.
    pub const ALL: [Verdict; 3] = [Verdict::False, Verdict::True, Verdict::Undefined];

    /// The byte that an evaluation writes for the verdict: 0, 1 or 2.
    pub const fn byte(self) -> u8 {
        match self {
            Verdict::False => 0,
            Verdict::True => 1,
            Verdict::Undefined => 2,
        }
    }

    /// The verdict that a byte stands for. Bytes above 2 stand for none.
    pub fn from_byte(byte: u8) -> Option<Verdict> {
        Verdict::ALL
            .into_iter()
            .find(|verdict| verdict.byte() == byte)
    }
}

impl fmt::Display for Verdict {
    /// `false`, `true` or `undefined`.
    fn fmt(&self, f: &mut fmt::Formatter<'_>) -> fmt::Result {
        f.pad(match self {
            Verdict::False => "false",
            Verdict::True => "true",
            Verdict::Undefined => "undefined",
        })
    }
}
