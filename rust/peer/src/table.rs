//! A table that passed the check: where its sections lie, and what is in them.

use crate::record::{
    records, ArrayNumber, NodeNumber, Record, SlotNumber, VariableNumber, MOST_ARRAYS, RECORD_BYTES,
};

/// A table that passed the check.
///
/// Only the check makes one, so its readers take every number for granted.
#[derive(Clone, Copy, Debug)]
pub(crate) struct Sound<'a> {
    pub bytes: &'a [u8],
    /// How many variables, slots, arrays, nodes and constraints there are.
    pub variables: u16,
    pub slots: u16,
    pub arrays: u16,
    pub nodes: u16,
    pub constraints: u16,
    /// The record number of each AR.
    pub array_records: [u16; MOST_ARRAYS as usize],
    /// The record number of node 0, or of the first record after the arrays.
    pub first_node: u16,
}

/// The elements of an array, and the index of the first.
#[derive(Clone, Copy, Debug)]
pub(crate) struct Array<'a> {
    pub first: i32,
    pub count: i32,
    elements: &'a [u8],
}

impl Array<'_> {
    /// The element at an index, if the index is inside.
    #[inline]
    pub fn element(&self, index: i64) -> Option<Record> {
        let place = index - i64::from(self.first);
        if place < 0 || place >= i64::from(self.count) {
            return None;
        }
        Some(record_at(self.elements, place as usize))
    }

    /// The last index.
    pub fn last(&self) -> i32 {
        self.first + self.count - 1
    }

    /// All elements, in order.
    pub fn elements(&self) -> impl Iterator<Item = Record> + '_ {
        records(self.elements).take(self.count as usize)
    }
}

impl<'a> Sound<'a> {
    /// The domain of a variable.
    #[inline]
    pub fn domain(&self, variable: VariableNumber) -> (i32, i32) {
        let record = record_at(self.bytes, self.variable_record(variable));
        (record.x, record.y)
    }

    /// The record number of a variable.
    #[inline]
    pub fn variable_record(&self, variable: VariableNumber) -> usize {
        1 + usize::from(variable.0)
    }

    /// The first and the last value of a slot. The range is empty if the last
    /// is below the first.
    #[inline]
    pub fn range(&self, slot: SlotNumber) -> (i32, i32) {
        let number = 1 + usize::from(self.variables) + usize::from(slot.0);
        let record = record_at(self.bytes, number);
        (record.x, record.y)
    }

    /// How many values a slot takes.
    #[inline]
    pub fn slot_values(&self, slot: SlotNumber) -> i64 {
        let (first, last) = self.range(slot);
        (i64::from(last) - i64::from(first) + 1).max(0)
    }

    /// An array.
    #[inline]
    pub fn array(&self, array: ArrayNumber) -> Array<'a> {
        let number = usize::from(self.array_records[usize::from(array.0)]);
        let record = record_at(self.bytes, number);
        Array {
            first: record.x,
            count: record.y,
            elements: &self.bytes[(number + 1) * RECORD_BYTES..],
        }
    }

    /// The record of a node.
    #[inline]
    pub fn node(&self, node: NodeNumber) -> Record {
        record_at(self.bytes, self.node_record(node))
    }

    /// The record number of a node.
    #[inline]
    pub fn node_record(&self, node: NodeNumber) -> usize {
        usize::from(self.first_node) + usize::from(node.0)
    }

    /// The numbers of all nodes, in order.
    pub fn node_numbers(&self) -> impl Iterator<Item = NodeNumber> {
        (0..self.nodes).map(NodeNumber)
    }

    /// The nodes of the constraints, in order.
    pub fn constraint_nodes(&self) -> impl Iterator<Item = NodeNumber> + 'a {
        let start = usize::from(self.first_node + self.nodes) * RECORD_BYTES;
        records(&self.bytes[start..]).map(Record::node_x)
    }

    /// The bytes of the VR, SL, AR and EL records.
    pub fn declarations(&self) -> &'a [u8] {
        &self.bytes[RECORD_BYTES..usize::from(self.first_node) * RECORD_BYTES]
    }
}

/// The record with this number among these bytes.
#[inline]
pub(crate) fn record_at(bytes: &[u8], number: usize) -> Record {
    let start = number * RECORD_BYTES;
    Record::read(&bytes[start..start + RECORD_BYTES])
}
