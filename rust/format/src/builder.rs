//! The builder of tables.

use crate::assignments::{self, Assignments};
use crate::kinds::Type;
use crate::node::Node;
use crate::row::{bytes_of, rows_of, Row};

/// A variable and its domain.
#[derive(Clone, Copy, Debug, PartialEq, Eq)]
pub struct Variable {
    /// The type.
    pub of: Type,
    /// The least value.
    pub low: i32,
    /// The greatest value.
    pub high: i32,
}

/// A quantified slot, empty if the last value is below the first.
#[derive(Clone, Copy, Debug, PartialEq, Eq)]
pub struct Slot {
    /// The first value.
    pub first: i32,
    /// The last value.
    pub last: i32,
}

impl Slot {
    /// How many values there are.
    pub fn values(self) -> u32 {
        let values = i64::from(self.last) - i64::from(self.first) + 1;
        u32::try_from(values.max(0)).unwrap_or(u32::MAX)
    }
}

/// An element of an array.
#[derive(Clone, Copy, Debug, PartialEq, Eq)]
pub enum Element {
    /// A constant, 0 or 1 in a bool array.
    Constant(i32),
    /// The variable with this number.
    Variable(i32),
}

/// An array of elements.
#[derive(Clone, Debug, PartialEq, Eq)]
pub struct Array {
    /// The type.
    pub of: Type,
    /// The first index.
    pub first: i32,
    /// The elements, one to an index.
    pub elements: Vec<Element>,
}

/// A table in the making. Things are numbered from 0 in the order they are
/// given, and the sections stand in their order whatever the order of calls.
///
/// ```
/// use barfigol_format::{Node, Table};
///
/// // y in 0..1, y < 1.
/// let table = Table::new()
///     .variable(0, 1)
///     .node(Node::variable(0))
///     .node(Node::constant(1))
///     .node(Node::below(0, 1))
///     .constraint(2);
/// assert_eq!(table.bytes().len(), 6 * 12);
/// ```
#[derive(Clone, Debug, Default, PartialEq, Eq)]
pub struct Table {
    /// The variables.
    pub variables: Vec<Variable>,
    /// The slots.
    pub slots: Vec<Slot>,
    /// The arrays.
    pub arrays: Vec<Array>,
    /// The nodes.
    pub nodes: Vec<Node>,
    /// The node of each constraint.
    pub constraints: Vec<i32>,
}

impl Table {
    /// A table with nothing but its head.
    pub fn new() -> Table {
        Table::default()
    }

    /// Adds an integer variable.
    pub fn variable(mut self, low: i32, high: i32) -> Table {
        let of = Type::Integer;
        self.variables.push(Variable { of, low, high });
        self
    }

    /// Adds a bool variable.
    pub fn bool_variable(mut self) -> Table {
        self.variables.push(Variable {
            of: Type::Bool,
            low: 0,
            high: 1,
        });
        self
    }

    /// Adds a slot.
    pub fn slot(mut self, first: i32, last: i32) -> Table {
        self.slots.push(Slot { first, last });
        self
    }

    /// Adds an array.
    pub fn array(mut self, of: Type, first: i32, elements: &[Element]) -> Table {
        self.arrays.push(Array {
            of,
            first,
            elements: elements.to_vec(),
        });
        self
    }

    /// Adds an array of integer constants.
    pub fn constants(self, first: i32, values: &[i32]) -> Table {
        let elements: Vec<Element> = values.iter().copied().map(Element::Constant).collect();
        self.array(Type::Integer, first, &elements)
    }

    /// Adds a node.
    pub fn node(mut self, node: Node) -> Table {
        self.nodes.push(node);
        self
    }

    /// Adds some nodes.
    pub fn nodes(mut self, nodes: &[Node]) -> Table {
        self.nodes.extend_from_slice(nodes);
        self
    }

    /// Adds a constraint.
    pub fn constraint(mut self, node: i32) -> Table {
        self.constraints.push(node);
        self
    }

    /// Adds a node in place and gives its number.
    pub fn push(&mut self, node: Node) -> i32 {
        self.nodes.push(node);
        self.nodes.len() as i32 - 1
    }

    /// How many records the table has.
    pub fn records(&self) -> usize {
        self.first_node_record() + self.nodes.len() + self.constraints.len()
    }

    /// The record number of node 0, if there is one.
    pub fn first_node_record(&self) -> usize {
        let arrays = self.arrays.iter().map(|array| 1 + array.elements.len());
        1 + self.variables.len() + self.slots.len() + arrays.sum::<usize>()
    }

    /// The records of the table.
    pub fn rows(&self) -> Vec<Row> {
        let mut rows = vec![Row::head(self.records() as i32)];
        for variable in &self.variables {
            let kind = variable.of.kind();
            rows.push(Row::new(b"VR", kind, variable.low, variable.high));
        }
        for slot in &self.slots {
            rows.push(Row::new(b"SL", 0, slot.first, slot.last));
        }
        for array in &self.arrays {
            let count = array.elements.len() as i32;
            rows.push(Row::new(b"AR", array.of.kind(), array.first, count));
            rows.extend(array.elements.iter().map(|element| match *element {
                Element::Constant(value) => Row::new(b"EL", 0, value, 0),
                Element::Variable(number) => Row::new(b"EL", 1, number, 0),
            }));
        }
        rows.extend(self.nodes.iter().map(|node| node.row()));
        for &node in &self.constraints {
            rows.push(Row::new(b"CN", 0, node, 0));
        }
        rows
    }

    /// All assignments, the last variable changing fastest.
    ///
    /// ```
    /// let table = barfigol_format::Table::new().variable(3, 4).bool_variable();
    /// let all: Vec<Vec<i32>> = table.assignments().collect();
    /// assert_eq!(all, [[3, 0], [3, 1], [4, 0], [4, 1]]);
    /// ```
    pub fn assignments(&self) -> Assignments {
        Assignments::of(&self.variables)
    }

    /// How many assignments there are, or nothing where they are too many for
    /// 128 bits.
    pub fn assignment_count(&self) -> Option<u128> {
        assignments::count(&self.variables)
    }

    /// The bytes of the table.
    pub fn bytes(&self) -> Vec<u8> {
        bytes_of(&self.rows())
    }

    /// Reads back the bytes of a sound table. Other bytes give some table.
    pub fn read(bytes: &[u8]) -> Table {
        rows_of(bytes).iter().fold(Table::new(), Table::with_row)
    }

    fn with_row(mut self, row: &Row) -> Table {
        let of = Type::of_kind(row.kind).unwrap_or(Type::Integer);
        let (low, high) = (row.x, row.y);
        match &row.mark {
            b"VR" => self.variables.push(Variable { of, low, high }),
            b"SL" => return self.slot(row.x, row.y),
            b"AR" => return self.array(of, row.x, &[]),
            b"EL" => {
                let element = match row.kind {
                    0 => Element::Constant(row.x),
                    _ => Element::Variable(row.x),
                };
                if let Some(array) = self.arrays.last_mut() {
                    array.elements.push(element);
                }
            }
            b"ND" => self.nodes.push(Node::of_row(*row)),
            b"CN" => self.constraints.push(row.x),
            _ => {}
        }
        self
    }
}
