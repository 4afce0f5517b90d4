//! Nodes: a constructor for each kind, and what a node says of itself.

use crate::kinds::{self, Field, Type};
use crate::row::Row;

/// A node. Other nodes, variables, slots and arrays are named by number.
#[derive(Clone, Copy, Debug, PartialEq, Eq)]
pub struct Node {
    /// The kind.
    pub kind: u8,
    /// The first number.
    pub x: i32,
    /// The second number.
    pub y: i32,
}

/// Makes the constructors of nodes, a kind to a line.
macro_rules! nodes {
    ($($(#[$doc:meta])* $name:ident = $kind:literal ($($field:ident),+);)+) => {
        impl Node {
            $(
                $(#[$doc])*
                pub const fn $name($($field: i32),+) -> Node {
                    Node::of($kind, [$($field),+])
                }
            )+
        }
    };
}

nodes! {
    /// An integer constant.
    constant = 1 (value);
    /// A truth value, 0 or 1.
    truth = 2 (value);
    /// An integer variable.
    variable = 3 (variable);
    /// A bool variable.
    bool_variable = 4 (variable);
    /// The value of a slot.
    slot = 5 (slot);
    /// a + b.
    add = 6 (a, b);
    /// a − b.
    subtract = 7 (a, b);
    /// a times b.
    multiply = 8 (a, b);
    /// The quotient of a and b, cut toward zero.
    div = 9 (a, b);
    /// The remainder of a and b, with the sign of a.
    modulo = 10 (a, b);
    /// −a.
    negate = 11 (a);
    /// The lesser of a and b.
    min = 12 (a, b);
    /// The greater of a and b.
    max = 13 (a, b);
    /// 1 for true, 0 for false.
    bool_to_int = 14 (a);
    /// The element of an integer array at an index.
    lookup = 15 (array, index);
    /// The element of a bool array at an index.
    bool_lookup = 16 (array, index);
    /// The sum of the body over a slot.
    sum = 17 (slot, body);
    /// a and b.
    and = 20 (a, b);
    /// a or b.
    or = 21 (a, b);
    /// a implies b.
    implies = 22 (a, b);
    /// a if and only if b.
    iff = 23 (a, b);
    /// Not a.
    not = 24 (a);
    /// a = b.
    equal = 25 (a, b);
    /// a ≠ b.
    unequal = 26 (a, b);
    /// a ≤ b.
    at_most = 27 (a, b);
    /// a < b.
    below = 28 (a, b);
    /// The body holds for some value of a slot.
    exists = 29 (slot, body);
    /// The body holds for each value of a slot.
    forall = 30 (slot, body);
}

impl Node {
    const fn of<const N: usize>(kind: u8, fields: [i32; N]) -> Node {
        let x = fields[0];
        let y = if N == 2 { fields[N - 1] } else { 0 };
        Node { kind, x, y }
    }

    /// The type of the node. A kind that does not exist counts as integer.
    pub fn yields(self) -> Type {
        kinds::find(self.kind).map_or(Type::Integer, |kind| kind.yields)
    }

    /// What the two fields stand for. A kind that does not exist has none.
    pub fn fields(self) -> (Field, Field) {
        kinds::find(self.kind).map_or((Field::Unused, Field::Unused), |kind| (kind.x, kind.y))
    }

    /// The numbers of the operand nodes.
    pub fn operands(self) -> Vec<i32> {
        let (x, y) = self.fields();
        let mut operands = Vec::new();
        if matches!(x, Field::Node(_)) {
            operands.push(self.x);
        }
        if matches!(y, Field::Node(_)) {
            operands.push(self.y);
        }
        operands
    }

    /// The slot that a quantifier or sum binds.
    pub fn bound_slot(self) -> Option<i32> {
        match self.fields() {
            (Field::Slot, Field::Node(_)) => Some(self.x),
            _ => None,
        }
    }

    /// The free slots, one bit to a slot, after those of the nodes before it. A
    /// number that names no earlier node, or no slot that a table may have, adds
    /// none.
    pub fn free_slots(self, before: &[u32]) -> u32 {
        let of_node = |number: i32| {
            let place = usize::try_from(number).ok();
            place.and_then(|place| before.get(place)).copied()
        };
        let of_operands = self
            .operands()
            .into_iter()
            .filter_map(of_node)
            .fold(0, |all, of_operand| all | of_operand);
        let slot = 1u32.checked_shl(self.x as u32).unwrap_or(0);
        match self.fields() {
            (Field::Slot, Field::Unused) => slot,
            (Field::Slot, _) => of_operands & !slot,
            _ => of_operands,
        }
    }

    /// The node of an ND record.
    pub const fn of_row(row: Row) -> Node {
        Node {
            kind: row.kind,
            x: row.x,
            y: row.y,
        }
    }

    /// The ND record of the node.
    pub fn row(self) -> Row {
        Row::new(b"ND", self.kind, self.x, self.y)
    }
}
