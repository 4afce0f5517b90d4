//! Records of a table, and the numbers by which records name things.

/// The bytes of one record.
pub(crate) const RECORD_BYTES: usize = 12;
/// The bytes of the longest table that is read or written.
pub(crate) const MOST_BYTES: usize = 60_000;
/// The records of the longest table.
pub(crate) const MOST_RECORDS: usize = MOST_BYTES / RECORD_BYTES;

/// The most VR records of a table.
pub(crate) const MOST_VARIABLES: u16 = 256;
/// The most SL records of a table.
pub(crate) const MOST_SLOTS: u16 = 16;
/// The most AR records of a table.
pub(crate) const MOST_ARRAYS: u16 = 64;
/// The most elements of an array.
pub(crate) const MOST_ELEMENTS: i32 = 1_024;
/// The most values of a slot.
pub(crate) const MOST_SLOT_VALUES: i64 = 10_000;
/// Ends of slots and first indices stay within this distance of 0.
pub(crate) const INDEX_LIMIT: i32 = 1_000_000_000;
/// Integer values and intervals stay within this distance of 0.
pub(crate) const VALUE_LIMIT: i64 = 2_000_000_000;

/// The number of a node.
#[derive(Clone, Copy, Debug, PartialEq, Eq)]
pub(crate) struct NodeNumber(pub u16);

/// The number of a variable.
#[derive(Clone, Copy, Debug, PartialEq, Eq)]
pub(crate) struct VariableNumber(pub u16);

/// The number of a quantified slot.
#[derive(Clone, Copy, Debug, PartialEq, Eq)]
pub(crate) struct SlotNumber(pub u8);

/// The number of an array.
#[derive(Clone, Copy, Debug, PartialEq, Eq)]
pub(crate) struct ArrayNumber(pub u8);

/// The marks, in the order of their sections.
#[derive(Clone, Copy, Debug, PartialEq, Eq, PartialOrd, Ord)]
pub(crate) enum Mark {
    Head,
    Variable,
    Slot,
    Array,
    Element,
    Node,
    Constraint,
}

impl Mark {
    /// The mark with these two letters, if there is one.
    pub fn read(letters: [u8; 2]) -> Option<Mark> {
        match &letters {
            b"HD" => Some(Mark::Head),
            b"VR" => Some(Mark::Variable),
            b"SL" => Some(Mark::Slot),
            b"AR" => Some(Mark::Array),
            b"EL" => Some(Mark::Element),
            b"ND" => Some(Mark::Node),
            b"CN" => Some(Mark::Constraint),
            _ => None,
        }
    }
}

/// One record, its fields taken apart.
#[derive(Clone, Copy, Debug, PartialEq, Eq)]
pub(crate) struct Record {
    pub mark: [u8; 2],
    pub kind: u8,
    pub aux: u8,
    pub x: i32,
    pub y: i32,
}

impl Record {
    /// A record with aux 0.
    pub fn new(mark: &[u8; 2], kind: u8, x: i32, y: i32) -> Record {
        Record {
            mark: *mark,
            kind,
            aux: 0,
            x,
            y,
        }
    }

    /// Reads the record whose bytes these are.
    ///
    /// # Panics
    ///
    /// If there are not exactly twelve bytes.
    #[inline]
    pub fn read(bytes: &[u8]) -> Record {
        let b: [u8; RECORD_BYTES] = bytes.try_into().expect("a record has twelve bytes");
        Record {
            mark: [b[0], b[1]],
            kind: b[2],
            aux: b[3],
            x: i32::from_le_bytes([b[4], b[5], b[6], b[7]]),
            y: i32::from_le_bytes([b[8], b[9], b[10], b[11]]),
        }
    }

    /// The bytes of the record.
    #[inline]
    pub fn bytes(self) -> [u8; RECORD_BYTES] {
        let [m0, m1] = self.mark;
        let [x0, x1, x2, x3] = self.x.to_le_bytes();
        let [y0, y1, y2, y3] = self.y.to_le_bytes();
        [m0, m1, self.kind, self.aux, x0, x1, x2, x3, y0, y1, y2, y3]
    }

    /// x as a node number, in a record that passed the check.
    #[inline]
    pub fn node_x(self) -> NodeNumber {
        NodeNumber(self.x as u16)
    }

    /// y as a node number, in a record that passed the check.
    #[inline]
    pub fn node_y(self) -> NodeNumber {
        NodeNumber(self.y as u16)
    }

    /// x as a variable number, in a record that passed the check.
    #[inline]
    pub fn variable_x(self) -> VariableNumber {
        VariableNumber(self.x as u16)
    }

    /// x as a slot number, in a record that passed the check.
    #[inline]
    pub fn slot_x(self) -> SlotNumber {
        SlotNumber(self.x as u8)
    }

    /// x as an array number, in a record that passed the check.
    #[inline]
    pub fn array_x(self) -> ArrayNumber {
        ArrayNumber(self.x as u8)
    }
}

/// The records of a table, in order.
pub(crate) fn records(table: &[u8]) -> impl Iterator<Item = Record> + '_ {
    table.chunks_exact(RECORD_BYTES).map(Record::read)
}
