//! Seeded random tables. All of them are sound.

use crate::prng::Random;
use barfigol_format::kinds::{self, Field, Kind};
use barfigol_format::{Array, Element, Node, Slot, Table, Type, Variable};

/// How large a random table may become.
#[derive(Clone, Copy, Debug, PartialEq, Eq)]
pub struct Plan {
    /// The most variables.
    pub variables: usize,
    /// The most values of a variable's domain.
    pub domain: i32,
    /// The most slots.
    pub slots: usize,
    /// The most values of a slot.
    pub slot_values: i32,
    /// The most arrays.
    pub arrays: usize,
    /// The most elements of an array.
    pub elements: usize,
    /// The most nodes, not counting quantifiers that close a constraint.
    pub nodes: usize,
    /// The most constraints.
    pub constraints: usize,
    /// How many percent of the numbers lie near the limits.
    pub wild: u32,
}

impl Plan {
    /// Tables of up to about twenty records.
    pub const SMALL: Plan = Plan {
        variables: 2,
        domain: 4,
        slots: 2,
        slot_values: 3,
        arrays: 1,
        elements: 3,
        nodes: 12,
        constraints: 2,
        wild: 0,
    };

    /// Tables of up to about fifty records.
    pub const MIDDLE: Plan = Plan {
        variables: 3,
        domain: 4,
        slots: 3,
        slot_values: 3,
        arrays: 3,
        elements: 4,
        nodes: 26,
        constraints: 3,
        wild: 0,
    };
}

/// Kinds that make something undefined. They are taken more often.
const PARTIAL_KINDS: [u8; 4] = [9, 10, 15, 16];

/// Numbers near the limits.
const WILD_NUMBERS: [i32; 12] = [
    2_000_000_000,
    2_000_000_001,
    -2_000_000_000,
    -2_000_000_001,
    1_999_999_999,
    i32::MAX,
    i32::MIN,
    1_000_000_000,
    -1_000_000_001,
    44_721,
    44_722,
    200_000,
];

/// Makes a sound table.
///
/// ```
/// use barfigol_tables::random::{table, Plan};
/// use barfigol_tables::Random;
///
/// let one = table(&mut Random::new(5), &Plan::SMALL);
/// assert_eq!(one, table(&mut Random::new(5), &Plan::SMALL));
/// ```
pub fn table(random: &mut Random, plan: &Plan) -> Table {
    let mut grower = Grower {
        random,
        plan,
        table: Table::new(),
        free: Vec::new(),
        depths: Vec::new(),
    };
    grower.declare();
    for _ in 0..grower.some_count(plan.nodes) {
        grower.grow();
    }
    for _ in 0..grower.some_count(plan.constraints) {
        grower.constrain();
    }
    grower.table
}

/// An assignment with each value in its domain.
pub fn assignment(random: &mut Random, table: &Table) -> Vec<i32> {
    let variables = table.variables.iter();
    variables
        .map(|variable| random.within(variable.low..=variable.high))
        .collect()
}

/// A table in growth.
struct Grower<'a> {
    random: &'a mut Random,
    plan: &'a Plan,
    table: Table,
    /// The free slots of each node, one bit to a slot.
    free: Vec<u32>,
    /// How many nodes stand below each other, from each node down.
    depths: Vec<usize>,
}

impl Grower<'_> {
    /// How many things to make: now and then a few, else half of the most, or
    /// more.
    fn some_count(&mut self, most: usize) -> usize {
        let least = if self.random.percent(10) {
            0
        } else {
            (most + 1) / 2
        };
        least + self.random.below(most - least + 1)
    }

    fn declare(&mut self) {
        for _ in 0..self.some_count(self.plan.variables) {
            let variable = self.new_variable();
            self.table.variables.push(variable);
        }
        for _ in 0..self.some_count(self.plan.slots) {
            let slot = self.new_slot();
            self.table.slots.push(slot);
        }
        for _ in 0..self.some_count(self.plan.arrays) {
            let array = self.new_array();
            self.table.arrays.push(array);
        }
    }

    fn new_variable(&mut self) -> Variable {
        if self.random.percent(30) {
            let of = Type::Bool;
            let (low, high) = (0, 1);
            return Variable { of, low, high };
        }
        let low = match self.wild_number() {
            Some(number) => number,
            None => self.random.within(-2..=2),
        };
        let width = self.random.within(1..=self.plan.domain);
        Variable {
            of: Type::Integer,
            low,
            high: low.saturating_add(width - 1),
        }
    }

    fn new_slot(&mut self) -> Slot {
        let first = self.random.within(-2..=2);
        let values = if self.random.percent(self.plan.wild) {
            self.random.pick(&[100, 3_000, 9_999, 10_000])
        } else if self.random.percent(15) {
            self.random.within(-2..=0)
        } else {
            self.random.within(1..=self.plan.slot_values)
        };
        Slot {
            first,
            last: first + values - 1,
        }
    }

    fn new_array(&mut self) -> Array {
        let of = self.random.pick(&[Type::Bool, Type::Integer]);
        let first = self.random.within(-2..=2);
        let count = 1 + self.random.below(self.plan.elements);
        let elements = (0..count).map(|_| self.new_element(of)).collect();
        Array {
            of,
            first,
            elements,
        }
    }

    fn new_element(&mut self, of: Type) -> Element {
        if self.random.percent(40) {
            if let Some(variable) = self.field(Field::Variable(of)) {
                return Element::Variable(variable);
            }
        }
        Element::Constant(match of {
            Type::Bool => self.random.within(0..=1),
            Type::Integer => self.constant(),
        })
    }

    /// Adds a node of a random kind.
    fn grow(&mut self) {
        let kind = if self.random.percent(20) {
            let number = self.random.pick(&PARTIAL_KINDS);
            kinds::find(number).unwrap_or(kinds::KINDS[0])
        } else {
            self.random.pick(&kinds::KINDS)
        };
        if let Some(node) = self.node_of(kind) {
            self.push(node);
            return;
        }
        // The table has nothing that the kind could name.
        let leaf = self.random.pick(&[Type::Bool, Type::Integer]);
        let leaf = self.leaf(leaf);
        self.push(leaf);
    }

    fn node_of(&mut self, kind: Kind) -> Option<Node> {
        let x = self.field(kind.x)?;
        let y = self.field(kind.y)?;
        let kind = kind.number;
        Some(Node { kind, x, y })
    }

    fn leaf(&mut self, of: Type) -> Node {
        match of {
            Type::Bool => Node::truth(self.random.within(0..=1)),
            Type::Integer => Node::constant(self.constant()),
        }
    }

    /// A number for a field, or nothing if the table has none to name.
    fn field(&mut self, field: Field) -> Option<i32> {
        let numbers: Vec<i32> = match field {
            Field::Unused => vec![0],
            Field::Integer => vec![self.constant()],
            Field::Truth => vec![0, 1],
            Field::Variable(of) => {
                numbers_where(&self.table.variables, |variable| variable.of == of)
            }
            Field::Slot => numbers_where(&self.table.slots, |_| true),
            Field::Array(of) => numbers_where(&self.table.arrays, |array| array.of == of),
            Field::Node(of) => return self.recent_node(of),
        };
        if numbers.is_empty() {
            return None;
        }
        Some(self.random.pick(&numbers))
    }

    /// A node of this type, one of the last few more often than not.
    fn recent_node(&mut self, of: Type) -> Option<i32> {
        let numbers = numbers_where(&self.table.nodes, |node| node.yields() == of);
        if numbers.is_empty() {
            return None;
        }
        let start = if self.random.percent(60) {
            numbers.len().saturating_sub(4)
        } else {
            0
        };
        Some(self.random.pick(&numbers[start..]))
    }

    /// The deepest of a few Boolean nodes.
    fn deep_bool_node(&mut self) -> Option<i32> {
        let few: Vec<i32> = (0..3)
            .filter_map(|_| self.recent_node(Type::Bool))
            .collect();
        few.into_iter()
            .max_by_key(|&node| self.depths[node as usize])
    }

    fn constant(&mut self) -> i32 {
        self.wild_number()
            .unwrap_or_else(|| self.random.within(-3..=4))
    }

    fn wild_number(&mut self) -> Option<i32> {
        if self.random.percent(self.plan.wild) {
            Some(self.random.pick(&WILD_NUMBERS))
        } else {
            None
        }
    }

    fn push(&mut self, node: Node) -> i32 {
        let operands = node.operands();
        self.free.push(node.free_slots(&self.free));
        let below = operands
            .iter()
            .map(|&operand| self.depths[operand as usize]);
        let depth = 1 + below.max().unwrap_or(0);
        self.depths.push(depth);
        self.table.push(node)
    }

    /// Adds a constraint, with a quantifier for each free slot of its node.
    fn constrain(&mut self) {
        let mut node = match self.deep_bool_node() {
            Some(node) => node,
            None => {
                let leaf = self.leaf(Type::Bool);
                self.push(leaf)
            }
        };
        for slot in 0..self.table.slots.len() as i32 {
            if self.free[node as usize] & (1 << slot) != 0 {
                node = if self.random.percent(50) {
                    self.push(Node::exists(slot, node))
                } else {
                    self.push(Node::forall(slot, node))
                };
            }
        }
        self.table.constraints.push(node);
    }
}

/// The numbers of the things with some property.
fn numbers_where<T>(things: &[T], has: impl Fn(&T) -> bool) -> Vec<i32> {
    (0..)
        .zip(things)
        .filter(|(_, thing)| has(thing))
        .map(|(number, _)| number)
        .collect()
}
