//! The check: finds the first faulty record of a table.
//!
//! One pass over the records. Each record is tested for order, then its fields
//! by themselves, then what they name, then types, then free slots.

use crate::answer::{Reason, Refusal};
use crate::kinds::{self, Operand, Type};
use crate::record::{
    records, Mark, Record, INDEX_LIMIT, MOST_ARRAYS, MOST_BYTES, MOST_ELEMENTS, MOST_RECORDS,
    MOST_SLOTS, MOST_SLOT_VALUES, MOST_VARIABLES, RECORD_BYTES,
};
use crate::table::{record_at, Sound};

/// Checks a table and tells where its sections lie.
pub(crate) fn sound(bytes: &[u8]) -> Result<Sound<'_>, Refusal> {
    let length = bytes.len();
    if !(RECORD_BYTES..=MOST_BYTES).contains(&length) || length % RECORD_BYTES != 0 {
        return Err(Refusal::of_call(Reason::Length));
    }
    let mut checker = Checker::new(bytes);
    for (number, record) in records(bytes).enumerate() {
        checker
            .record(number, record)
            .map_err(|reason| Refusal::at(reason, number))?;
    }
    if checker.elements_due > 0 {
        return Err(Refusal::at(Reason::Order, length / RECORD_BYTES));
    }
    Ok(checker.table)
}

/// What the check knows after some records.
struct Checker<'a> {
    /// The counts and places found so far.
    table: Sound<'a>,
    /// The section of the last record.
    section: Mark,
    /// The EL records still to come for the last array, and their type.
    elements_due: i32,
    element_type: Type,
    /// The free slots of each node, one bit to a slot.
    free: [u16; MOST_RECORDS],
}

/// Refuses for a reason unless a condition holds.
#[inline]
fn demand(holds: bool, reason: Reason) -> Result<(), Reason> {
    if holds {
        Ok(())
    } else {
        Err(reason)
    }
}

impl<'a> Checker<'a> {
    fn new(bytes: &'a [u8]) -> Checker<'a> {
        Checker {
            table: Sound {
                bytes,
                variables: 0,
                slots: 0,
                arrays: 0,
                nodes: 0,
                constraints: 0,
                array_records: [0; MOST_ARRAYS as usize],
                first_node: 1,
            },
            section: Mark::Head,
            elements_due: 0,
            element_type: Type::Bool,
            free: [0; MOST_RECORDS],
        }
    }

    fn record(&mut self, number: usize, record: Record) -> Result<(), Reason> {
        let mark = Mark::read(record.mark).ok_or(Reason::Order)?;
        demand(self.in_order(number, mark), Reason::Order)?;
        demand(record.aux == 0, Reason::Field)?;
        match mark {
            Mark::Head => self.head(record)?,
            Mark::Variable => self.variable(record)?,
            Mark::Slot => self.slot(record)?,
            Mark::Array => self.array(number, record)?,
            Mark::Element => self.element(record)?,
            Mark::Node => return self.node(record),
            Mark::Constraint => return self.constraint(record),
        }
        self.table.first_node = number as u16 + 1;
        Ok(())
    }

    /// Whether a mark may stand here. Notes the section it belongs to.
    #[inline]
    fn in_order(&mut self, number: usize, mark: Mark) -> bool {
        match mark {
            Mark::Head => number == 0,
            Mark::Element => self.elements_due > 0,
            _ => {
                let fits = number > 0 && self.elements_due == 0 && mark >= self.section;
                self.section = mark;
                fits
            }
        }
    }

    fn head(&self, record: Record) -> Result<(), Reason> {
        let count = self.table.bytes.len() / RECORD_BYTES;
        let allowed = record.kind == 1 && record.x == count as i32 && record.y == 0;
        demand(allowed, Reason::Field)
    }

    fn variable(&mut self, record: Record) -> Result<(), Reason> {
        let allowed = match Type::of_kind(record.kind) {
            Some(Type::Bool) => (record.x, record.y) == (0, 1),
            Some(Type::Integer) => record.x <= record.y,
            None => false,
        };
        let room = self.table.variables < MOST_VARIABLES;
        demand(allowed && room, Reason::Field)?;
        self.table.variables += 1;
        Ok(())
    }

    fn slot(&mut self, record: Record) -> Result<(), Reason> {
        let values = i64::from(record.y) - i64::from(record.x) + 1;
        let allowed = record.kind == 0
            && index_allowed(record.x)
            && index_allowed(record.y)
            && values <= MOST_SLOT_VALUES;
        let room = self.table.slots < MOST_SLOTS;
        demand(allowed && room, Reason::Field)?;
        self.table.slots += 1;
        Ok(())
    }

    fn array(&mut self, number: usize, record: Record) -> Result<(), Reason> {
        let element_type = Type::of_kind(record.kind).ok_or(Reason::Field)?;
        let allowed = index_allowed(record.x) && (1..=MOST_ELEMENTS).contains(&record.y);
        let room = self.table.arrays < MOST_ARRAYS;
        demand(allowed && room, Reason::Field)?;
        self.table.array_records[usize::from(self.table.arrays)] = number as u16;
        self.table.arrays += 1;
        self.elements_due = record.y;
        self.element_type = element_type;
        Ok(())
    }

    fn element(&mut self, record: Record) -> Result<(), Reason> {
        self.elements_due -= 1;
        demand(record.kind <= 1 && record.y == 0, Reason::Field)?;
        if record.kind == 0 {
            let allowed = self.element_type == Type::Integer || is_truth(record.x);
            return demand(allowed, Reason::Field);
        }
        self.operand(Operand::Variable(self.element_type), record.x)?;
        Ok(())
    }

    fn node(&mut self, record: Record) -> Result<(), Reason> {
        let shape = kinds::shape(record.kind).ok_or(Reason::Field)?;
        let x = self.operand(shape.x, record.x);
        let y = self.operand(shape.y, record.y);
        let of_operands = match (x, y) {
            (Ok(x), Ok(y)) => x | y,
            (Err(x), Err(y)) => return Err(x.min(y)),
            (Err(reason), Ok(_)) | (Ok(_), Err(reason)) => return Err(reason),
        };
        let free = match (shape.x, shape.y) {
            (Operand::Slot, Operand::Unused) => 1 << record.x,
            (Operand::Slot, _) => of_operands & !(1 << record.x),
            _ => of_operands,
        };
        self.free[usize::from(self.table.nodes)] = free;
        self.table.nodes += 1;
        Ok(())
    }

    fn constraint(&mut self, record: Record) -> Result<(), Reason> {
        demand(record.kind == 0 && record.y == 0, Reason::Field)?;
        let free = self.operand(Operand::Node(Type::Bool), record.x)?;
        demand(free == 0, Reason::FreeSlot)?;
        self.table.constraints += 1;
        Ok(())
    }

    /// Tests one field: what it may be, whether it names something before this
    /// record, and the type of that. Gives the free slots of an operand node.
    #[inline]
    fn operand(&self, operand: Operand, field: i32) -> Result<u16, Reason> {
        let table = &self.table;
        match operand {
            Operand::Unused => demand(field == 0, Reason::Field)?,
            Operand::Integer => {}
            Operand::Truth => demand(is_truth(field), Reason::Field)?,
            Operand::Slot => {
                named(field, table.slots)?;
            }
            Operand::Variable(wanted) => {
                let record = 1 + named(field, table.variables)?;
                let found = Type::of_kind(self.kind_of(record));
                demand(found == Some(wanted), Reason::Type)?;
            }
            Operand::Array(wanted) => {
                let record = table.array_records[named(field, table.arrays)?];
                let found = Type::of_kind(self.kind_of(usize::from(record)));
                demand(found == Some(wanted), Reason::Type)?;
            }
            Operand::Node(wanted) => {
                let number = named(field, table.nodes)?;
                let record = usize::from(table.first_node) + number;
                let found = kinds::yields(self.kind_of(record));
                demand(found == Some(wanted), Reason::Type)?;
                return Ok(self.free[number]);
            }
        }
        Ok(0)
    }

    #[inline]
    fn kind_of(&self, record: usize) -> u8 {
        record_at(self.table.bytes, record).kind
    }
}

/// The number that a field gives, if it is below a count.
#[inline]
fn named(field: i32, count: u16) -> Result<usize, Reason> {
    demand(0 <= field && field < i32::from(count), Reason::Name)?;
    Ok(field as usize)
}

fn is_truth(field: i32) -> bool {
    (0..=1).contains(&field)
}

fn index_allowed(field: i32) -> bool {
    (-INDEX_LIMIT..=INDEX_LIMIT).contains(&field)
}
