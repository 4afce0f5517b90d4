//! Constraint tables: their records, the kinds of nodes, a builder, a text form,
//! and what is wrong with a table in words.
//!
//! [`Table`] is a readable builder and [`Row`] a record, sound or not. [`kinds`]
//! is the table of kinds and [`limits`] names the limits. [`show`] writes any
//! bytes as text and [`assemble`] reads such text back. [`faults`] tells what
//! the check refuses, [`intervals`] which node may pass the limit of values, and
//! [`cost`] counts steps. [`printable`] makes words of others fit for a terminal.
//!
//! Callers get their answers from the proved library. What stands here makes
//! tables and explains answers.
//!
//! ```
//! use barfigol_format::{assemble, show};
//!
//! let table = assemble("HD 1 0 ? 0\nND 2 0 1 0\nCN 0 0 0 0\n")?;
//! assert_eq!(
//!     show(&table),
//!     "HD 1 0 3 0      head: 3 records\n\
//!      ND 2 0 1 0      node 0: true\n\
//!      CN 0 0 0 0      constraint 0: node 0\n"
//! );
//! # Ok::<(), barfigol_format::AssembleError>(())
//! ```

#![forbid(unsafe_code)]
#![warn(missing_docs)]

mod assemble;
mod assignments;
mod before;
mod builder;
pub mod cost;
pub mod faults;
mod fields;
pub mod intervals;
pub mod kinds;
pub mod limits;
mod meaning;
mod names;
mod node;
mod order;
pub mod printable;
mod row;
mod show;
pub mod words;

pub use assemble::{assemble, AssembleError, Problem};
pub use assignments::Assignments;
pub use builder::{Array, Element, Slot, Table, Variable};
pub use kinds::Type;
pub use meaning::title;
pub use node::Node;
pub use row::{bytes_of, hex, pretty, rest_of, rows_of, Row, ROW_BYTES};
pub use show::show;
