//! The tables of the folder `examples/`, by file name.

use crate::placement::{placement, two_forms};
use crate::trials;
use barfigol_format::Table;

/// P4 with a fault: the divisor of node 2 names no earlier node.
pub fn faulty() -> Table {
    let mut table = trials::p4();
    table.nodes[2].y = 12;
    table
}

/// Each file name with its table: P1 to P8, one with a fault, the placement
/// model, and one of its rules in two forms.
pub fn all() -> Vec<(&'static str, Table)> {
    vec![
        ("p1.table", trials::p1()),
        ("p2.table", trials::p2()),
        ("p3.table", trials::p3()),
        ("p4.table", trials::p4()),
        ("p5.table", trials::p5()),
        ("p6.table", trials::p6()),
        ("p7.table", trials::p7()),
        ("p8.table", trials::p8()),
        ("faulty.table", faulty()),
        ("placement.table", placement()),
        ("two-forms.table", two_forms()),
    ]
}
