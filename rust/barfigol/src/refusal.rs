//! Why a call is refused.

use std::error::Error;
use std::fmt;

/// Why a call is refused: a variant to each number, 1 to 11, with the record
/// that it is about. The names are those of the header for C.
///
/// Records are numbered from 0, the head's. A refusal of the call as a whole
/// has no record.
///
/// ```
/// use barfigol::Refusal;
///
/// let refusal = barfigol::check(&[0; 12]).unwrap_err();
/// assert_eq!(refusal, Refusal::Order { record: 0 });
/// assert_eq!((refusal.number(), refusal.record()), (2, Some(0)));
/// assert_eq!(
///     refusal.to_string(),
///     "refused with 2 at record 0: the mark is wrong or out of order, or an element is missing"
/// );
/// ```
#[derive(Clone, Copy, Debug, PartialEq, Eq, Hash)]
pub enum Refusal {
    /// 1: the table's length is below 12, above 60,000, or no multiple of 12.
    Length,
    /// 2: a wrong mark or order, or an EL is missing.
    Order {
        /// The faulty record, or the number of records where an EL is missing
        /// at the end.
        record: u32,
    },
    /// 3: a kind, an unused field or a number is not allowed, there are too
    /// many of a mark, or HD's count is wrong.
    Field {
        /// The faulty record.
        record: u32,
    },
    /// 4: a number names nothing, or no earlier node.
    Name {
        /// The faulty record.
        record: u32,
    },
    /// 5: an operand or element of the wrong type, or a constraint that is not
    /// Boolean.
    Type {
        /// The faulty record.
        record: u32,
    },
    /// 6: a constraint with a free slot.
    FreeSlot {
        /// The constraint's record.
        record: u32,
    },
    /// 7: the choice is not 1 to 3.
    Choice,
    /// 8: a node's interval, or a value met, is beyond ±2,000,000,000.
    Limit {
        /// The record of the first such node, from `translate`. `evaluate`
        /// names none.
        record: Option<u32>,
    },
    /// 9: the output is longer than its buffer, or a translation is longer
    /// than 60,000 bytes.
    Room,
    /// 10: the assignment has the wrong length, or a value outside its domain.
    Assignment {
        /// The VR of the first value outside its domain, and none for a wrong
        /// length.
        record: Option<u32>,
    },
    /// 11: the steps are more than the budget.
    Budget,
}

impl Refusal {
    /// The refusal with this number and record, where 0 stands for no record in
    /// numbers 8 and 10. There is none for other numbers, nor for a record that
    /// goes with no record.
    ///
    /// ```
    /// use barfigol::Refusal;
    ///
    /// assert_eq!(Refusal::new(8, 3), Some(Refusal::Limit { record: Some(3) }));
    /// assert_eq!(Refusal::new(8, 0), Some(Refusal::Limit { record: None }));
    /// assert_eq!(Refusal::new(7, 3), None);
    /// assert_eq!(Refusal::new(0, 0), None);
    /// ```
    pub fn new(number: u32, record: u32) -> Option<Refusal> {
        let behind_the_head = Some(record).filter(|&record| record != 0);
        match (number, record) {
            (1, 0) => Some(Refusal::Length),
            (2, _) => Some(Refusal::Order { record }),
            (3, _) => Some(Refusal::Field { record }),
            (4, _) => Some(Refusal::Name { record }),
            (5, _) => Some(Refusal::Type { record }),
            (6, _) => Some(Refusal::FreeSlot { record }),
            (7, 0) => Some(Refusal::Choice),
            (8, _) => Some(Refusal::Limit {
                record: behind_the_head,
            }),
            (9, 0) => Some(Refusal::Room),
            (10, _) => Some(Refusal::Assignment {
                record: behind_the_head,
            }),
            (11, 0) => Some(Refusal::Budget),
            _ => None,
        }
    }

    /// The number, 1 to 11.
    pub fn number(&self) -> u32 {
        match self {
            Refusal::Length => 1,
            Refusal::Order { .. } => 2,
            Refusal::Field { .. } => 3,
            Refusal::Name { .. } => 4,
            Refusal::Type { .. } => 5,
            Refusal::FreeSlot { .. } => 6,
            Refusal::Choice => 7,
            Refusal::Limit { .. } => 8,
            Refusal::Room => 9,
            Refusal::Assignment { .. } => 10,
            Refusal::Budget => 11,
        }
    }

    /// The record that the refusal is about, and none where it is about the
    /// call as a whole. Where a number must stand for none, it is 0.
    pub fn record(&self) -> Option<u32> {
        match *self {
            Refusal::Order { record }
            | Refusal::Field { record }
            | Refusal::Name { record }
            | Refusal::Type { record }
            | Refusal::FreeSlot { record } => Some(record),
            Refusal::Limit { record } | Refusal::Assignment { record } => record,
            Refusal::Length | Refusal::Choice | Refusal::Room | Refusal::Budget => None,
        }
    }

    /// What the number stands for, in a sentence without an end.
    pub fn reason(&self) -> &'static str {
        match self {
            Refusal::Length => "the table's length is below 12, above 60,000, or no multiple of 12",
            Refusal::Order { .. } => "the mark is wrong or out of order, or an element is missing",
            Refusal::Field { .. } => "a kind, an unused field, a number or a count is not allowed",
            Refusal::Name { .. } => "a number names nothing, or no earlier node",
            Refusal::Type { .. } => "an operand, an element or a constraint has the wrong type",
            Refusal::FreeSlot { .. } => "the constraint has a free slot",
            Refusal::Choice => "the choice is not 1 to 3",
            Refusal::Limit { .. } => {
                "a value may be, or is, beyond 2,000,000,000 or -2,000,000,000"
            }
            Refusal::Room => {
                "the output is longer than its buffer, or a translation longer than 60,000 bytes"
            }
            Refusal::Assignment { .. } => {
                "the assignment has the wrong length, or a value outside its domain"
            }
            Refusal::Budget => "the steps are more than the budget",
        }
    }
}

impl fmt::Display for Refusal {
    fn fmt(&self, f: &mut fmt::Formatter<'_>) -> fmt::Result {
        write!(f, "refused with {}", self.number())?;
        if let Some(record) = self.record() {
            write!(f, " at record {record}")?;
        }
        write!(f, ": {}", self.reason())
    }
}

impl Error for Refusal {}
