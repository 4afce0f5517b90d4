//! The table of node kinds: which operands each kind takes, what it yields.

/// The type of a variable, an array or a node.
#[derive(Clone, Copy, Debug, PartialEq, Eq)]
pub(crate) enum Type {
    Bool,
    Integer,
}

impl Type {
    /// The type that the kind of a VR or AR record stands for.
    pub fn of_kind(kind: u8) -> Option<Type> {
        match kind {
            0 => Some(Type::Bool),
            1 => Some(Type::Integer),
            _ => None,
        }
    }
}

/// What a field of a node stands for.
#[derive(Clone, Copy, Debug, PartialEq, Eq)]
pub(crate) enum Operand {
    /// Nothing: the field is 0.
    Unused,
    /// Any integer.
    Integer,
    /// 0 or 1.
    Truth,
    /// The number of a variable of this type.
    Variable(Type),
    /// The number of a slot.
    Slot,
    /// The number of an array of this type.
    Array(Type),
    /// The number of an earlier node of this type.
    Node(Type),
}

/// The operands of a kind and the type it yields.
#[derive(Clone, Copy, Debug, PartialEq, Eq)]
pub(crate) struct Shape {
    pub x: Operand,
    pub y: Operand,
    pub yields: Type,
}

pub(crate) const CONSTANT: u8 = 1;
pub(crate) const TRUTH: u8 = 2;
pub(crate) const VARIABLE: u8 = 3;
pub(crate) const BOOL_VARIABLE: u8 = 4;
pub(crate) const SLOT: u8 = 5;
pub(crate) const ADD: u8 = 6;
pub(crate) const SUBTRACT: u8 = 7;
pub(crate) const MULTIPLY: u8 = 8;
pub(crate) const DIV: u8 = 9;
pub(crate) const MOD: u8 = 10;
pub(crate) const NEGATE: u8 = 11;
pub(crate) const MIN: u8 = 12;
pub(crate) const MAX: u8 = 13;
pub(crate) const BOOL_TO_INT: u8 = 14;
pub(crate) const LOOKUP: u8 = 15;
pub(crate) const BOOL_LOOKUP: u8 = 16;
pub(crate) const SUM: u8 = 17;
pub(crate) const AND: u8 = 20;
pub(crate) const OR: u8 = 21;
pub(crate) const IMPLIES: u8 = 22;
pub(crate) const IFF: u8 = 23;
pub(crate) const NOT: u8 = 24;
pub(crate) const EQUAL: u8 = 25;
pub(crate) const UNEQUAL: u8 = 26;
pub(crate) const AT_MOST: u8 = 27;
pub(crate) const BELOW: u8 = 28;
pub(crate) const EXISTS: u8 = 29;
pub(crate) const FORALL: u8 = 30;

const KIND_BYTES: usize = FORALL as usize + 1;

/// The table of kinds, by kind.
static KINDS: [Option<Shape>; KIND_BYTES] = table_of_kinds();

const fn table_of_kinds() -> [Option<Shape>; KIND_BYTES] {
    use Operand::{Array, Node, Slot, Truth, Unused, Variable};
    use Type::{Bool, Integer};
    let mut table = [None; KIND_BYTES];
    table[CONSTANT as usize] = entry(Operand::Integer, Unused, Integer);
    table[TRUTH as usize] = entry(Truth, Unused, Bool);
    table[VARIABLE as usize] = entry(Variable(Integer), Unused, Integer);
    table[BOOL_VARIABLE as usize] = entry(Variable(Bool), Unused, Bool);
    table[SLOT as usize] = entry(Slot, Unused, Integer);
    table[ADD as usize] = entry(Node(Integer), Node(Integer), Integer);
    table[SUBTRACT as usize] = entry(Node(Integer), Node(Integer), Integer);
    table[MULTIPLY as usize] = entry(Node(Integer), Node(Integer), Integer);
    table[DIV as usize] = entry(Node(Integer), Node(Integer), Integer);
    table[MOD as usize] = entry(Node(Integer), Node(Integer), Integer);
    table[NEGATE as usize] = entry(Node(Integer), Unused, Integer);
    table[MIN as usize] = entry(Node(Integer), Node(Integer), Integer);
    table[MAX as usize] = entry(Node(Integer), Node(Integer), Integer);
    table[BOOL_TO_INT as usize] = entry(Node(Bool), Unused, Integer);
    table[LOOKUP as usize] = entry(Array(Integer), Node(Integer), Integer);
    table[BOOL_LOOKUP as usize] = entry(Array(Bool), Node(Integer), Bool);
    table[SUM as usize] = entry(Slot, Node(Integer), Integer);
    table[AND as usize] = entry(Node(Bool), Node(Bool), Bool);
    table[OR as usize] = entry(Node(Bool), Node(Bool), Bool);
    table[IMPLIES as usize] = entry(Node(Bool), Node(Bool), Bool);
    table[IFF as usize] = entry(Node(Bool), Node(Bool), Bool);
    table[NOT as usize] = entry(Node(Bool), Unused, Bool);
    table[EQUAL as usize] = entry(Node(Integer), Node(Integer), Bool);
    table[UNEQUAL as usize] = entry(Node(Integer), Node(Integer), Bool);
    table[AT_MOST as usize] = entry(Node(Integer), Node(Integer), Bool);
    table[BELOW as usize] = entry(Node(Integer), Node(Integer), Bool);
    table[EXISTS as usize] = entry(Slot, Node(Bool), Bool);
    table[FORALL as usize] = entry(Slot, Node(Bool), Bool);
    table
}

const fn entry(x: Operand, y: Operand, yields: Type) -> Option<Shape> {
    Some(Shape { x, y, yields })
}

/// The shape of a kind, if the kind exists.
#[inline]
pub(crate) fn shape(kind: u8) -> Option<Shape> {
    KINDS.get(usize::from(kind)).copied().flatten()
}

/// The type that a kind yields, if the kind exists.
#[inline]
pub(crate) fn yields(kind: u8) -> Option<Type> {
    shape(kind).map(|shape| shape.yields)
}
