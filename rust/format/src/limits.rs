//! The limits of a table, each named once.

use crate::ROW_BYTES;

/// The bytes of the longest table.
pub const MOST_BYTES: usize = 60_000;
/// The records of the longest table, the head included.
pub const MOST_RECORDS: usize = MOST_BYTES / ROW_BYTES;
/// The most variables.
pub const MOST_VARIABLES: usize = 256;
/// The most slots.
pub const MOST_SLOTS: usize = 16;
/// The most arrays.
pub const MOST_ARRAYS: usize = 64;
/// The most elements of an array.
pub const MOST_ELEMENTS: i32 = 1_024;
/// The most values of a slot.
pub const MOST_SLOT_VALUES: i64 = 10_000;
/// Ends of slots and first indices of arrays stay within this distance of 0.
pub const INDEX_LIMIT: i32 = 1_000_000_000;
/// Values and intervals of integer nodes stay within this distance of 0.
pub const VALUE_LIMIT: i64 = 2_000_000_000;
