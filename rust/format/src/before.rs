//! What stands before a record of a table, faulty tables included.

use crate::limits::MOST_ELEMENTS;
use crate::{faults, order, Node, Row, Type};

/// An array that stands before a record.
#[derive(Clone, Copy, Debug, PartialEq, Eq)]
pub(crate) struct ArrayBefore {
    /// The type, unless it is in doubt.
    pub of: Option<Type>,
    /// The first index.
    pub first: i32,
    /// How many elements it is to have.
    pub wanted: i32,
}

/// What the records before a certain one declare, as far as it can be told.
#[derive(Clone, Debug)]
pub(crate) struct Before {
    /// How many records there are.
    pub records: usize,
    /// The mark that tells the section.
    pub mark: [u8; 2],
    /// The type of each variable, unless it is in doubt.
    pub variables: Vec<Option<Type>>,
    /// How many slots there are.
    pub slots: usize,
    /// The arrays.
    pub arrays: Vec<ArrayBefore>,
    /// How many elements the last array has.
    pub elements: usize,
    /// How many elements it still lacks. Nothing where that is in doubt.
    pub due: Option<usize>,
    /// The type of each node, unless it is in doubt.
    pub nodes: Vec<Option<Type>>,
    /// The free slots of each node, one bit to a slot, as far as they are
    /// known.
    pub free: Vec<u32>,
    /// How many constraints there are.
    pub constraints: usize,
    /// Whether a record stood where it should not. It may have been meant for
    /// another one, so numbers may name other things than they should.
    pub in_doubt: bool,
}

impl Before {
    /// What stands before the first record: nothing.
    pub fn new() -> Before {
        Before {
            records: 0,
            mark: *b"HD",
            variables: Vec::new(),
            slots: 0,
            arrays: Vec::new(),
            elements: 0,
            due: Some(0),
            nodes: Vec::new(),
            free: Vec::new(),
            constraints: 0,
            in_doubt: false,
        }
    }

    /// What some rows declare.
    pub fn of(rows: &[Row]) -> Before {
        let mut before = Before::new();
        rows.iter().for_each(|&row| before.push(row));
        before
    }

    /// The type of the array that an element here belongs to, unless it is in
    /// doubt.
    pub fn element_type(&self) -> Option<Type> {
        self.due.and(self.arrays.last()?.of)
    }

    /// Goes on past a record. The type of a faulty one is in doubt.
    pub fn push(&mut self, row: Row) {
        let faults = faults::of_record(self, row, None);
        let is_out_of_place = faults.iter().any(|&(number, _)| number == 2);
        self.in_doubt |= is_out_of_place;
        if self.tells_the_section(row) {
            self.mark = row.mark;
        }
        self.due = match &row.mark {
            _ if is_out_of_place => None,
            b"AR" => due_of(row),
            b"EL" => self.due.map(|due| due.saturating_sub(1)),
            _ => Some(0),
        };
        self.declare(row, faults.is_empty());
        self.records += 1;
    }

    /// Whether the records behind this one belong to its section or a later one.
    /// A record out of place tells it too, lest all behind it be out of place,
    /// but no head, and no element that is not known to be due.
    fn tells_the_section(&self, row: Row) -> bool {
        match &row.mark {
            _ if self.records == 0 => false,
            b"HD" => false,
            b"EL" => self.due > Some(0),
            other => order::section(*other).is_some(),
        }
    }

    /// Notes what a record declares.
    fn declare(&mut self, row: Row, is_sound: bool) {
        let of = Type::of_kind(row.kind).filter(|_| is_sound);
        match &row.mark {
            b"VR" => self.variables.push(of),
            b"SL" => self.slots += 1,
            b"AR" => {
                let (first, wanted) = (row.x, row.y);
                self.elements = 0;
                self.arrays.push(ArrayBefore { of, first, wanted });
            }
            b"EL" => self.elements += 1,
            b"ND" => {
                let node = Some(Node::of_row(row)).filter(|_| is_sound);
                let free = node.map_or(0, |node| node.free_slots(&self.free));
                self.free.push(free);
                self.nodes.push(node.map(Node::yields));
            }
            b"CN" => self.constraints += 1,
            _ => {}
        }
    }
}

/// The elements that an array asks for. Where its count is not allowed any
/// number may follow.
fn due_of(array: Row) -> Option<usize> {
    let is_allowed = (1..=MOST_ELEMENTS).contains(&array.y);
    usize::try_from(array.y).ok().filter(|_| is_allowed)
}
