//! What an implementation of the three calls looks like to the trials.

use barfigol_format::{pretty, Table};

/// The choices of the three readings.
pub const STRICT: u32 = 1;
/// Kleene's reading.
pub const KLEENE: u32 = 2;
/// The relational reading.
pub const RELATIONAL: u32 = 3;
/// All three.
pub const CHOICES: [u32; 3] = [STRICT, KLEENE, RELATIONAL];

pub use barfigol_format::limits::MOST_BYTES;

/// What a call gives back, with the same fields for every call.
#[derive(Clone, Copy, Debug, Default, PartialEq, Eq)]
pub struct Answer {
    /// 0 for done, else the number of the refusal.
    pub number: u32,
    /// The record that a refusal is about.
    pub record: u32,
    /// The steps of an evaluation.
    pub steps: u32,
    /// How many bytes the call wrote.
    pub length: u32,
    /// Whether every verdict of an evaluation is 1.
    pub all_true: bool,
}

/// The answer of a refusal.
pub const fn refused(number: u32, record: u32) -> Answer {
    Answer {
        number,
        record,
        steps: 0,
        length: 0,
        all_true: false,
    }
}

/// An implementation of the three calls.
pub trait Calls: Sync {
    /// Checks a table.
    fn check(&self, table: &[u8]) -> Answer;

    /// Evaluates the constraints of a table for one assignment.
    fn evaluate(
        &self,
        choice: u32,
        table: &[u8],
        assignment: &[i32],
        budget: u32,
        verdicts: &mut [u8],
    ) -> Answer;

    /// Translates a table under a reading.
    fn translate(&self, choice: u32, table: &[u8], out: &mut [u8]) -> Answer;
}

/// Makes [`Calls`] of a module with the three calls, whose answers have the
/// fields of an [`Answer`].
///
/// ```
/// mod refuses_all {
///     pub use barfigol_tables::calls::{refused, Answer};
///
///     pub fn check(_: &[u8]) -> Answer {
///         refused(1, 0)
///     }
///     pub fn evaluate(_: u32, _: &[u8], _: &[i32], _: u32, _: &mut [u8]) -> Answer {
///         refused(1, 0)
///     }
///     pub fn translate(_: u32, _: &[u8], _: &mut [u8]) -> Answer {
///         refused(1, 0)
///     }
/// }
///
/// barfigol_tables::calls_of!(RefusesAll = refuses_all);
///
/// use barfigol_tables::calls::Calls;
/// assert_eq!(RefusesAll.check(&[]).number, 1);
/// ```
#[macro_export]
macro_rules! calls_of {
    ($name:ident = $($module:tt)+) => {
        /// An implementation under trial.
        pub struct $name;

        impl $crate::calls::Calls for $name {
            fn check(&self, table: &[u8]) -> $crate::calls::Answer {
                $crate::answer_of!($($module)+::check(table))
            }

            fn evaluate(
                &self,
                choice: u32,
                table: &[u8],
                assignment: &[i32],
                budget: u32,
                verdicts: &mut [u8],
            ) -> $crate::calls::Answer {
                $crate::answer_of!($($module)+::evaluate(choice, table, assignment, budget, verdicts))
            }

            fn translate(&self, choice: u32, table: &[u8], out: &mut [u8]) -> $crate::calls::Answer {
                $crate::answer_of!($($module)+::translate(choice, table, out))
            }
        }
    };
}

/// An [`Answer`] from a struct with its fields.
#[doc(hidden)]
#[macro_export]
macro_rules! answer_of {
    ($answer:expr) => {{
        let answer = $answer;
        $crate::calls::Answer {
            number: answer.number,
            record: answer.record,
            steps: answer.steps,
            length: answer.length,
            all_true: answer.all_true,
        }
    }};
}

impl dyn Calls + '_ {
    /// Number and record of the check.
    pub fn checked(&self, table: &[u8]) -> (u32, u32) {
        let answer = self.check(table);
        assert_eq!(answer, refused(answer.number, answer.record));
        (answer.number, answer.record)
    }

    /// Evaluates with the largest budget and gives the verdicts, or the
    /// refusal.
    ///
    /// # Errors
    ///
    /// The answer, if it is a refusal.
    pub fn verdicts(
        &self,
        choice: u32,
        table: &[u8],
        assignment: &[i32],
    ) -> Result<Vec<u8>, Answer> {
        let mut room = vec![7; table.len() / 12];
        let answer = self.evaluate(choice, table, assignment, u32::MAX, &mut room);
        if answer.number != 0 {
            return Err(answer);
        }
        let (written, rest) = room.split_at(answer.length as usize);
        assert!(rest.iter().all(|&byte| byte == 7), "the rest is untouched");
        assert_eq!(answer.all_true, written.iter().all(|&byte| byte == 1));
        Ok(written.to_vec())
    }

    /// The verdict on the only constraint of a table without variables.
    pub fn verdict(&self, choice: u32, table: &Table) -> u8 {
        match self.verdicts(choice, &table.bytes(), &[]) {
            Ok(found) if found.len() == 1 => found[0],
            other => panic!("{other:?}\n{}", pretty(&table.bytes())),
        }
    }

    /// Translates into a buffer of the greatest length.
    ///
    /// # Errors
    ///
    /// The answer, if it is a refusal.
    pub fn translated(&self, choice: u32, table: &[u8]) -> Result<Vec<u8>, Answer> {
        let mut out = vec![0; MOST_BYTES];
        let answer = self.translate(choice, table, &mut out);
        if answer.number != 0 {
            return Err(answer);
        }
        out.truncate(answer.length as usize);
        Ok(out)
    }

    /// The assignments under which every constraint is true.
    pub fn solutions(&self, choice: u32, table: &Table) -> Vec<Vec<i32>> {
        let bytes = table.bytes();
        let solves = |assignment: &Vec<i32>| {
            let found = self.verdicts(choice, &bytes, assignment);
            let found = found.expect("a sound table");
            found.iter().all(|&verdict| verdict == 1)
        };
        table.assignments().filter(solves).collect()
    }
}
