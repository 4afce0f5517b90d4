//! The kinds of nodes, with what each field stands for.

use std::fmt;
use Type::{Bool, Integer};

/// The type of a variable, an array or a node.
#[derive(Clone, Copy, Debug, PartialEq, Eq)]
pub enum Type {
    /// Truth values.
    Bool,
    /// Integers.
    Integer,
}

impl Type {
    /// The kind of a VR or AR record of this type.
    pub const fn kind(self) -> u8 {
        match self {
            Type::Bool => 0,
            Type::Integer => 1,
        }
    }

    /// The type of a VR or AR record of this kind. Kinds above 1 have none.
    pub const fn of_kind(kind: u8) -> Option<Type> {
        match kind {
            0 => Some(Type::Bool),
            1 => Some(Type::Integer),
            _ => None,
        }
    }

    /// The other type.
    pub const fn other(self) -> Type {
        match self {
            Type::Bool => Type::Integer,
            Type::Integer => Type::Bool,
        }
    }
}

impl fmt::Display for Type {
    /// `bool` or `integer`.
    fn fmt(&self, f: &mut fmt::Formatter<'_>) -> fmt::Result {
        f.pad(match self {
            Type::Bool => "bool",
            Type::Integer => "integer",
        })
    }
}

/// What a field of a node stands for.
#[derive(Clone, Copy, Debug, PartialEq, Eq)]
pub enum Field {
    /// Nothing: the field is 0.
    Unused,
    /// Any integer.
    Integer,
    /// 0 or 1.
    Truth,
    /// The number of a variable of this type.
    Variable(Type),
    /// The number of a slot.
    Slot,
    /// The number of an array of this type.
    Array(Type),
    /// The number of an earlier node of this type.
    Node(Type),
}

impl fmt::Display for Field {
    /// What stands in the field, such as `integer node`.
    fn fmt(&self, f: &mut fmt::Formatter<'_>) -> fmt::Result {
        match self {
            Field::Unused => write!(f, "0"),
            Field::Integer => write!(f, "any integer"),
            Field::Truth => write!(f, "0 or 1"),
            Field::Variable(of) => write!(f, "{of} variable"),
            Field::Slot => write!(f, "slot"),
            Field::Array(of) => write!(f, "{of} array"),
            Field::Node(of) => write!(f, "{of} node"),
        }
    }
}

/// A kind of node: its number, its two fields, the type it yields, and how it
/// is written.
#[derive(Clone, Copy, Debug, PartialEq, Eq)]
pub struct Kind {
    /// The number in the record.
    pub number: u8,
    /// What x stands for.
    pub x: Field,
    /// What y stands for.
    pub y: Field,
    /// The type of the node.
    pub yields: Type,
    form: &'static str,
}

impl Kind {
    /// The node in words, where its fields are written like this.
    ///
    /// ```
    /// let div = barfigol_format::kinds::find(9).expect("kind 9");
    /// assert_eq!(div.written("node 5", "node 2"), "node 5 div node 2");
    /// ```
    pub fn written(&self, x: &str, y: &str) -> String {
        self.form.replace("{x}", x).replace("{y}", y)
    }
}

const NONE: Field = Field::Unused;
const INTEGER: Field = Field::Node(Integer);
const BOOL: Field = Field::Node(Bool);

/// A kind, in the order of the columns of docs/TABLE.md.
const fn kind(number: u8, form: &'static str, x: Field, y: Field, yields: Type) -> Kind {
    Kind {
        number,
        x,
        y,
        yields,
        form,
    }
}

/// All kinds, by their numbers.
pub const KINDS: [Kind; 28] = [
    kind(1, "{x}", Field::Integer, NONE, Integer),
    kind(2, "{x}", Field::Truth, NONE, Bool),
    kind(3, "{x}", Field::Variable(Integer), NONE, Integer),
    kind(4, "{x}", Field::Variable(Bool), NONE, Bool),
    kind(5, "{x}", Field::Slot, NONE, Integer),
    kind(6, "{x} + {y}", INTEGER, INTEGER, Integer),
    kind(7, "{x} - {y}", INTEGER, INTEGER, Integer),
    kind(8, "{x} * {y}", INTEGER, INTEGER, Integer),
    kind(9, "{x} div {y}", INTEGER, INTEGER, Integer),
    kind(10, "{x} mod {y}", INTEGER, INTEGER, Integer),
    kind(11, "minus {x}", INTEGER, NONE, Integer),
    kind(12, "min({x}, {y})", INTEGER, INTEGER, Integer),
    kind(13, "max({x}, {y})", INTEGER, INTEGER, Integer),
    kind(14, "boolToInt({x})", BOOL, NONE, Integer),
    kind(15, "{x} at {y}", Field::Array(Integer), INTEGER, Integer),
    kind(16, "{x} at {y}", Field::Array(Bool), INTEGER, Bool),
    kind(17, "sum over {x} of {y}", Field::Slot, INTEGER, Integer),
    kind(20, "{x} and {y}", BOOL, BOOL, Bool),
    kind(21, "{x} or {y}", BOOL, BOOL, Bool),
    kind(22, "{x} implies {y}", BOOL, BOOL, Bool),
    kind(23, "{x} iff {y}", BOOL, BOOL, Bool),
    kind(24, "not {x}", BOOL, NONE, Bool),
    kind(25, "{x} = {y}", INTEGER, INTEGER, Bool),
    kind(26, "{x} != {y}", INTEGER, INTEGER, Bool),
    kind(27, "{x} <= {y}", INTEGER, INTEGER, Bool),
    kind(28, "{x} < {y}", INTEGER, INTEGER, Bool),
    kind(29, "exists over {x} of {y}", Field::Slot, BOOL, Bool),
    kind(30, "forall over {x} of {y}", Field::Slot, BOOL, Bool),
];

/// The kind with this number, if there is one.
pub fn find(number: u8) -> Option<Kind> {
    KINDS.iter().copied().find(|kind| kind.number == number)
}
