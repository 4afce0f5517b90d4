//! Numbers that name other records: faults of numbers 4, 5 and 6.

use crate::before::Before;
use crate::kinds::{self, Field};
use crate::{Row, Type};

/// What a number may name.
#[derive(Clone, Copy, Debug, PartialEq, Eq)]
enum Thing {
    Variable,
    Slot,
    Array,
    Node,
}

impl Thing {
    fn word(self) -> &'static str {
        match self {
            Thing::Variable => "variable",
            Thing::Slot => "slot",
            Thing::Array => "array",
            Thing::Node => "node",
        }
    }

    /// How many there are.
    fn count(self, before: &Before) -> usize {
        match self {
            Thing::Variable => before.variables.len(),
            Thing::Slot => before.slots,
            Thing::Array => before.arrays.len(),
            Thing::Node => before.nodes.len(),
        }
    }

    /// The type of the one with this number, where it is there and has one.
    fn type_of(self, before: &Before, number: usize) -> Option<Type> {
        match self {
            Thing::Variable => *before.variables.get(number)?,
            Thing::Slot => None,
            Thing::Array => before.arrays.get(number)?.of,
            Thing::Node => *before.nodes.get(number)?,
        }
    }
}

/// A field of a record that names something.
struct Naming {
    /// The field's name, `x` or `y`.
    field: &'static str,
    number: i32,
    thing: Thing,
    /// The type that is wanted, where it matters and is known.
    wanted: Option<Type>,
}

impl Naming {
    /// What a field of a node names, if it names anything.
    fn of_field(field: &'static str, number: i32, meant: Field) -> Option<Naming> {
        let (thing, wanted) = match meant {
            Field::Variable(of) => (Thing::Variable, Some(of)),
            Field::Slot => (Thing::Slot, None),
            Field::Array(of) => (Thing::Array, Some(of)),
            Field::Node(of) => (Thing::Node, Some(of)),
            Field::Unused | Field::Integer | Field::Truth => return None,
        };
        Some(Naming {
            field,
            number,
            thing,
            wanted,
        })
    }

    /// The place of what is named among its like, if it is there.
    fn place(&self, before: &Before) -> Option<usize> {
        let place = usize::try_from(self.number).ok()?;
        Some(place).filter(|&place| place < self.thing.count(before))
    }
}

/// The fields of a record that name something.
fn namings(before: &Before, row: Row) -> Vec<Naming> {
    match &row.mark {
        b"EL" if row.kind == 1 => vec![Naming {
            field: "x",
            number: row.x,
            thing: Thing::Variable,
            wanted: before.element_type(),
        }],
        b"ND" => kinds::find(row.kind).map_or(Vec::new(), |kind| {
            let x = Naming::of_field("x", row.x, kind.x);
            let y = Naming::of_field("y", row.y, kind.y);
            x.into_iter().chain(y).collect()
        }),
        b"CN" => vec![Naming {
            field: "x",
            number: row.x,
            thing: Thing::Node,
            wanted: Some(Type::Bool),
        }],
        _ => Vec::new(),
    }
}

/// Number 4: fields that name nothing.
pub(crate) fn of_nothing(before: &Before, row: Row) -> Vec<String> {
    let fault = |naming: Naming| {
        if naming.place(before).is_some() {
            return None;
        }
        let field = format!("{} = {}", naming.field, naming.number);
        if row.mark == *b"ND" && naming.thing == Thing::Node {
            return Some(format!("{field} names no earlier node"));
        }
        let there = match naming.thing.count(before) {
            0 => String::from("there is none"),
            1 => String::from("there is one, number 0"),
            count => format!("there are {count}, from 0 to {}", count - 1),
        };
        Some(format!(
            "{field} names no {} ({there})",
            naming.thing.word()
        ))
    };
    let all = namings(before, row).into_iter();
    all.filter_map(fault).collect()
}

/// Number 5: fields that name something of the wrong type.
pub(crate) fn of_wrong_type(before: &Before, row: Row) -> Vec<String> {
    let by = match &row.mark {
        b"EL" => String::from("its array"),
        b"CN" => String::from("a constraint"),
        _ => format!("kind {}", row.kind),
    };
    let fault = |naming: Naming| {
        let found = naming.thing.type_of(before, naming.place(before)?)?;
        let wanted = naming.wanted.filter(|&wanted| wanted != found)?;
        let field = format!("{} = {}", naming.field, naming.number);
        let (found, wanted) = (with_article(found), with_article(wanted));
        Some(format!(
            "{field} names {found} {}, and {by} takes {wanted} one",
            naming.thing.word()
        ))
    };
    let all = namings(before, row).into_iter();
    all.filter_map(fault).collect()
}

fn with_article(of: Type) -> &'static str {
    match of {
        Type::Bool => "a Boolean",
        Type::Integer => "an integer",
    }
}

/// Number 6: the slots that are free in a constraint's node.
pub(crate) fn of_open_node(before: &Before, row: Row) -> Vec<String> {
    if row.mark != *b"CN" {
        return Vec::new();
    }
    let node = usize::try_from(row.x).ok();
    let free = node.and_then(|node| before.free.get(node)).copied();
    let slots: Vec<String> = (0..u32::BITS)
        .filter(|slot| free.unwrap_or(0) >> slot & 1 == 1)
        .map(|slot| slot.to_string())
        .collect();
    match slots.as_slice() {
        [] => Vec::new(),
        [slot] => vec![format!("slot {slot} is free in node {}", row.x)],
        slots => vec![format!(
            "slots {} are free in node {}",
            slots.join(", "),
            row.x
        )],
    }
}
