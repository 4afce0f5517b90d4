//! Checks constraint tables, evaluates them under three readings, and
//! translates them into tables with nothing undefined.
//!
//! This is a safe door to the proved library, whose archive the build links:
//! `scripts/archive.sh` writes it, and `BARFIGOL_LIB_DIR` may name another
//! folder. The archive is code for Linux on x86-64, and nothing else is built.
//! docs/TABLE.md describes the table; `barfigol_format` has a builder of tables.
//!
//! ```
//! use barfigol::{check, evaluate, translate, Reading, Verdict};
//!
//! // y in 0..1, not (1 div y = 1).
//! let table = [
//!     *b"HD\x01\0\x08\0\0\0\0\0\0\0",    // 8 records
//!     *b"VR\x01\0\0\0\0\0\x01\0\0\0",    // variable 0, y: 0..1
//!     *b"ND\x01\0\x01\0\0\0\0\0\0\0",    // node 0: 1
//!     *b"ND\x03\0\0\0\0\0\0\0\0\0",      // node 1: y
//!     *b"ND\x09\0\0\0\0\0\x01\0\0\0",    // node 2: node 0 div node 1
//!     *b"ND\x19\0\x02\0\0\0\0\0\0\0",    // node 3: node 2 = node 0
//!     *b"ND\x18\0\x03\0\0\0\0\0\0\0",    // node 4: not node 3
//!     *b"CN\0\0\x04\0\0\0\0\0\0\0",      // the constraint: node 4
//! ]
//! .concat();
//! check(&table)?;
//!
//! // At y = 0 the quotient is undefined. The comparison is false, so it holds.
//! let found = evaluate(Reading::Relational, &table, &[0], 100)?;
//! assert_eq!(found.verdicts, [Verdict::True]);
//! assert_eq!((found.steps, found.all_true), (6, true));
//!
//! let translation = translate(Reading::Relational, &table)?;
//! check(&translation)?;
//! assert_eq!(translation.len(), 20 * barfigol::RECORD_BYTES);
//! # Ok::<(), barfigol::Refusal>(())
//! ```
//!
//! # Room
//!
//! [`evaluate_into`] and [`translate_into`] write into a lent buffer: a refusal
//! changes no byte of it, a success writes from byte 0 and leaves the rest. They
//! and [`check`] allocate nothing; [`evaluate`] and [`translate`] make the
//! vector that they give. No call keeps anything, so calls may run side by side.
//!
//! # Stack
//!
//! A call needs stack: [`check`] 32,000 bytes, translation 112,000, evaluation
//! 112,000 and 224 more for each level of nodes above nodes, which comes to
//! 1,250,000 for the deepest table. So 2 MB, which a thread of Rust has unless
//! another size is asked for, suffice for every call. The figures are measured
//! and rounded up; docs/BENCHMARKS.md tells how. Where a stack is used up the
//! program is stopped.

#![deny(unsafe_op_in_unsafe_fn)]
#![warn(missing_docs)]

#[cfg(not(all(target_arch = "x86_64", target_os = "linux")))]
compile_error!("the library's archive is code for Linux on x86-64");

pub mod raw;
mod reading;
mod refusal;
mod verdict;

pub use reading::{Choice, NoReading, Reading};
pub use refusal::Refusal;
pub use verdict::Verdict;

/// The bytes of one record.
pub const RECORD_BYTES: usize = 12;

/// The bytes of the longest table that is read or written.
pub const MOST_BYTES: usize = 60_000;

/// What an evaluation found.
#[derive(Clone, Debug, PartialEq, Eq)]
pub struct Evaluation {
    /// The verdict on each constraint, in the table's order.
    pub verdicts: Vec<Verdict>,
    /// The steps of all constraints. They depend on the table alone.
    pub steps: u32,
    /// Whether every constraint is true, also where there is none.
    pub all_true: bool,
}

/// What an evaluation into a lent buffer found.
#[derive(Clone, Copy, Debug, PartialEq, Eq)]
pub struct Totals {
    /// How many verdicts were written, one for each constraint.
    pub written: usize,
    /// The steps of all constraints. They depend on the table alone.
    pub steps: u32,
    /// Whether every constraint is true, also where there is none.
    pub all_true: bool,
}

/// Checks a table.
///
/// ```
/// use barfigol::{check, Refusal};
///
/// // A table of one record: the head, which counts itself.
/// let mut table = *b"HD\x01\0\x01\0\0\0\0\0\0\0";
/// assert_eq!(check(&table), Ok(()));
///
/// // A wrong count is refused with 3 at record 0.
/// table[4] = 2;
/// assert_eq!(check(&table), Err(Refusal::Field { record: 0 }));
/// ```
///
/// # Errors
///
/// Refuses with 1 to 6.
pub fn check(table: &[u8]) -> Result<(), Refusal> {
    done(raw::check(table)).map(|_| ())
}

/// Evaluates the constraints of a table for one assignment, which has a value
/// for each variable, taking at most `budget` steps.
///
/// ```
/// use barfigol::{evaluate, Reading, Refusal, Verdict};
///
/// // 1 div 0 < 1, in 6 records: it costs 5 steps.
/// let table = [
///     *b"HD\x01\0\x06\0\0\0\0\0\0\0",
///     *b"ND\x01\0\x01\0\0\0\0\0\0\0",
///     *b"ND\x01\0\0\0\0\0\0\0\0\0",
///     *b"ND\x09\0\0\0\0\0\x01\0\0\0",
///     *b"ND\x1c\0\x02\0\0\0\0\0\0\0",
///     *b"CN\0\0\x03\0\0\0\0\0\0\0",
/// ]
/// .concat();
/// let found = evaluate(Reading::Kleene, &table, &[], 5)?;
/// assert_eq!(found.verdicts, [Verdict::Undefined]);
/// assert_eq!(evaluate(Reading::Kleene, &table, &[], 4), Err(Refusal::Budget));
/// # Ok::<(), Refusal>(())
/// ```
///
/// # Errors
///
/// Refuses with 1 to 8, 10 and 11.
pub fn evaluate(
    choice: impl Into<Choice>,
    table: &[u8],
    assignment: &[i32],
    budget: u32,
) -> Result<Evaluation, Refusal> {
    // A table has fewer constraints than records, and a longer one is refused.
    let mut bytes = vec![0; table.len().min(MOST_BYTES) / RECORD_BYTES];
    let totals = evaluate_into(choice, table, assignment, budget, &mut bytes)?;
    bytes.truncate(totals.written);
    Ok(Evaluation {
        verdicts: bytes.into_iter().map(verdict).collect(),
        steps: totals.steps,
        all_true: totals.all_true,
    })
}

/// Evaluates the constraints of a table for one assignment, into a lent buffer.
///
/// Writes one byte for each constraint: 0 false, 1 true, 2 undefined.
///
/// ```
/// use barfigol::{evaluate_into, Reading, Refusal};
///
/// // true and then false, as two constraints.
/// let table = [
///     *b"HD\x01\0\x05\0\0\0\0\0\0\0",
///     *b"ND\x02\0\x01\0\0\0\0\0\0\0",
///     *b"ND\x02\0\0\0\0\0\0\0\0\0",
///     *b"CN\0\0\0\0\0\0\0\0\0\0",
///     *b"CN\0\0\x01\0\0\0\0\0\0\0",
/// ]
/// .concat();
/// let mut verdicts = [9; 3];
/// let found = evaluate_into(Reading::Strict, &table, &[], 2, &mut verdicts)?;
/// assert_eq!((found.written, found.all_true), (2, false));
/// assert_eq!(verdicts, [1, 0, 9]);
///
/// let refusal = evaluate_into(Reading::Strict, &table, &[], 2, &mut verdicts[..1]);
/// assert_eq!(refusal, Err(Refusal::Room));
/// # Ok::<(), Refusal>(())
/// ```
///
/// # Errors
///
/// Refuses with 1 to 11.
pub fn evaluate_into(
    choice: impl Into<Choice>,
    table: &[u8],
    assignment: &[i32],
    budget: u32,
    verdicts: &mut [u8],
) -> Result<Totals, Refusal> {
    let Choice(choice) = choice.into();
    let answer = done(raw::evaluate(choice, table, assignment, budget, verdicts))?;
    Ok(Totals {
        written: answer.length as usize,
        steps: answer.steps,
        all_true: answer.all_true,
    })
}

/// Translates a table under a reading.
///
/// ```
/// use barfigol::{translate, Choice, Reading, Refusal};
///
/// // The head alone has nothing to translate.
/// let table = *b"HD\x01\0\x01\0\0\0\0\0\0\0";
/// assert_eq!(translate(Reading::Relational, &table)?, table);
/// assert_eq!(translate(Choice(259), &table), Err(Refusal::Choice));
/// # Ok::<(), Refusal>(())
/// ```
///
/// # Errors
///
/// Refuses with 1 to 9.
pub fn translate(choice: impl Into<Choice>, table: &[u8]) -> Result<Vec<u8>, Refusal> {
    let mut out = vec![0; MOST_BYTES];
    let length = translate_into(choice, table, &mut out)?;
    out.truncate(length);
    out.shrink_to_fit();
    Ok(out)
}

/// Translates a table under a reading into a lent buffer, and gives the length
/// of the translation. [`MOST_BYTES`] bytes of room always suffice.
///
/// ```
/// use barfigol::{translate_into, Reading, Refusal};
///
/// let table = *b"HD\x01\0\x01\0\0\0\0\0\0\0";
/// let mut out = [7; 13];
/// assert_eq!(translate_into(Reading::Strict, &table, &mut out), Ok(12));
/// assert_eq!((&out[..12], out[12]), (&table[..], 7));
///
/// let refusal = translate_into(Reading::Strict, &table, &mut out[..11]);
/// assert_eq!(refusal, Err(Refusal::Room));
/// ```
///
/// # Errors
///
/// Refuses with 1 to 9.
pub fn translate_into(
    choice: impl Into<Choice>,
    table: &[u8],
    out: &mut [u8],
) -> Result<usize, Refusal> {
    let Choice(choice) = choice.into();
    let answer = done(raw::translate(choice, table, out))?;
    Ok(answer.length as usize)
}

/// The answer of a call that was not refused.
///
/// # Panics
///
/// Where the archive gives an answer that the library never gives, by proof: it
/// is then not this library's.
fn done(answer: raw::Answer) -> Result<raw::Answer, Refusal> {
    if answer.number == 0 {
        return Ok(answer);
    }
    let refusal = Refusal::new(answer.number, answer.record);
    Err(refusal.unwrap_or_else(|| panic!("the archive is not the library's: {answer:?}")))
}

/// The verdict that the library wrote.
///
/// # Panics
///
/// Where the archive wrote a byte that the library never writes, by proof.
fn verdict(byte: u8) -> Verdict {
    Verdict::from_byte(byte)
        .unwrap_or_else(|| panic!("the archive is not the library's: verdict {byte}"))
}
