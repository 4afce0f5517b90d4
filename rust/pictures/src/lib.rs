//! The pictures of the pages, drawn from the example tables and from what the
//! proved library answers about them.
//!
//! [`all`] gives each with its file name in `docs/pictures`. The same tables give
//! the same pictures, byte for byte.

#![forbid(unsafe_code)]
#![warn(missing_docs)]

mod answers;
mod companions;
mod layout;
mod placements;
mod svg;
mod tree;
mod trees;
mod way;

/// Each picture's file name and its text.
pub fn all() -> Vec<(&'static str, String)> {
    vec![
        ("way.svg", way::picture()),
        ("p4-trees.svg", trees::picture()),
        ("placements.svg", placements::picture()),
        ("table-layout.svg", layout::picture()),
    ]
}
