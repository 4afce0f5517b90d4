//! Constraint tables for trials and benchmarks, and the trials themselves.
//!
//! [`trials`] holds the worked examples, [`placement`] a small model,
//! [`examples`] the files made of both, [`limits`] tables at the edges of what
//! is allowed, [`random`] seeded sound tables of every kind, [`damage`] faulty
//! ones, and [`shrink`] makes a failing table smaller. [`cases`] makes whole
//! calls, and [`suite`] holds the trials that every implementation of the
//! [`calls`] has to pass. Nothing here checks or evaluates a table. Tables are
//! built with `barfigol_format`, whose names are given on for the trials.

#![forbid(unsafe_code)]
#![warn(missing_docs)]

pub mod calls;
pub mod cases;
pub mod damage;
pub mod examples;
pub mod limits;
pub mod placement;
mod prng;
pub mod random;
pub mod shrink;
pub mod suite;
pub mod trials;

pub use barfigol_format::{bytes_of, hex, pretty, rows_of, Row, ROW_BYTES};
pub use barfigol_format::{cost, kinds, Array, Element, Node, Slot, Table, Type, Variable};
pub use prng::Random;
