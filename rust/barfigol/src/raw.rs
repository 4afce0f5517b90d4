//! The calls as the header for C has them, over lent slices.
//!
//! This is the only place with `unsafe`. What the header asks of a caller holds
//! for every slice: its pointer is valid for its length and never null, even
//! for an empty one, and what is lent for writing overlaps nothing else.

/// What a call gives back. A field that a call has nothing to say about is 0
/// or `false`.
#[repr(C)]
#[derive(Clone, Copy, Debug, Default, PartialEq, Eq)]
pub struct Answer {
    /// 0 for done, else the number of the refusal.
    pub number: u32,
    /// The record that a refusal is about.
    pub record: u32,
    /// The steps of an evaluation.
    pub steps: u32,
    /// How many bytes the call wrote.
    pub length: u32,
    /// Whether every verdict of an evaluation is 1.
    pub all_true: bool,
}

// The offsets of the fields are compared in a test: `offset_of` is younger than
// the oldest compiler this builds with.
const _: () = assert!(std::mem::size_of::<Answer>() == 20);
const _: () = assert!(std::mem::align_of::<Answer>() == 4);

extern "C" {
    fn barfigol_check(table: *const u8, table_len: usize) -> Answer;

    fn barfigol_evaluate(
        choice: u32,
        table: *const u8,
        table_len: usize,
        assignment: *const i32,
        assignment_len: usize,
        budget: u32,
        verdicts: *mut u8,
        verdicts_len: usize,
    ) -> Answer;

    fn barfigol_translate(
        choice: u32,
        table: *const u8,
        table_len: usize,
        out: *mut u8,
        out_len: usize,
    ) -> Answer;
}

/// Checks a table.
pub fn check(table: &[u8]) -> Answer {
    // Sound: the pointer and the length are those of one lent slice.
    unsafe { barfigol_check(table.as_ptr(), table.len()) }
}

/// Evaluates the constraints of a table for one assignment.
pub fn evaluate(
    choice: u32,
    table: &[u8],
    assignment: &[i32],
    budget: u32,
    verdicts: &mut [u8],
) -> Answer {
    // Sound: each pointer goes with the length of its slice, and `verdicts` is
    // lent to this call alone.
    unsafe {
        barfigol_evaluate(
            choice,
            table.as_ptr(),
            table.len(),
            assignment.as_ptr(),
            assignment.len(),
            budget,
            verdicts.as_mut_ptr(),
            verdicts.len(),
        )
    }
}

/// Translates a table under a reading.
pub fn translate(choice: u32, table: &[u8], out: &mut [u8]) -> Answer {
    // Sound: each pointer goes with the length of its slice, and `out` is lent
    // to this call alone.
    unsafe {
        barfigol_translate(
            choice,
            table.as_ptr(),
            table.len(),
            out.as_mut_ptr(),
            out.len(),
        )
    }
}
