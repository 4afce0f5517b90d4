//! What a call gives back, and the reasons for a refusal.

/// What a call gives back.
///
/// A refusal has a number from 1 to 11 and a record number, and its other
/// fields are 0 and `false`. A success has number 0 and record 0.
#[derive(Clone, Copy, Debug, Default, PartialEq, Eq)]
pub struct Answer {
    /// 0 for done, else the number of the refusal.
    pub number: u32,
    /// The record that the refusal is about, counted from 0.
    pub record: u32,
    /// The steps of an evaluation.
    pub steps: u32,
    /// The bytes written: verdicts of an evaluation, records of a translation.
    pub length: u32,
    /// Whether every constraint of an evaluation is true.
    pub all_true: bool,
}

/// Why a call is refused. The discriminants are the numbers given back, and
/// within one record the least reason is given.
#[derive(Clone, Copy, Debug, PartialEq, Eq, PartialOrd, Ord)]
pub(crate) enum Reason {
    /// The table's length is too small, too large, or no whole records.
    Length = 1,
    /// A wrong mark, a mark out of order, or a missing element.
    Order = 2,
    /// A kind, a field or a number that is not allowed.
    Field = 3,
    /// A number that names nothing, or no earlier node.
    Name = 4,
    /// An operand, element or constraint of the wrong type.
    Type = 5,
    /// A constraint with a free slot.
    FreeSlot = 6,
    /// A choice of no reading.
    Choice = 7,
    /// A value or interval beyond the limit.
    Limit = 8,
    /// Too little room for the output.
    Room = 9,
    /// An assignment of the wrong length, or a value outside its domain.
    Assignment = 10,
    /// More steps than the budget.
    Budget = 11,
}

/// A refusal: its reason and the record it is about.
#[derive(Clone, Copy, Debug, PartialEq, Eq)]
pub(crate) struct Refusal {
    pub reason: Reason,
    pub record: u32,
}

impl Refusal {
    /// A refusal that is about one record.
    pub fn at(reason: Reason, record: usize) -> Refusal {
        let record = record as u32;
        Refusal { reason, record }
    }

    /// A refusal that is about the call as a whole.
    pub fn of_call(reason: Reason) -> Refusal {
        Refusal { reason, record: 0 }
    }
}

impl From<Refusal> for Answer {
    fn from(refusal: Refusal) -> Answer {
        Answer {
            number: refusal.reason as u32,
            record: refusal.record,
            ..Answer::default()
        }
    }
}
