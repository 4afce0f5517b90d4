//! Evaluation: the constraints of a table for one assignment, one reading.

use crate::answer::{Answer, Reason, Refusal};
use crate::kinds;
use crate::reading::Reading;
use crate::record::{NodeNumber, Record, VariableNumber, MOST_RECORDS, MOST_SLOTS, VALUE_LIMIT};
use crate::table::Sound;
use crate::{check, cost};

/// Evaluates every constraint and writes one verdict byte for each.
pub(crate) fn evaluate(
    choice: u32,
    table: &[u8],
    assignment: &[i32],
    budget: u32,
    verdicts: &mut [u8],
) -> Result<Answer, Refusal> {
    let reading = Reading::chosen(choice)?;
    let table = check::sound(table)?;
    within_domains(&table, assignment)?;
    let count = usize::from(table.constraints);
    if verdicts.len() < count {
        return Err(Refusal::of_call(Reason::Room));
    }
    let steps = cost::total(&table);
    if steps > u64::from(budget) {
        return Err(Refusal::of_call(Reason::Budget));
    }
    // A refusal changes no lent byte, and the walk may still end in one.
    let mut found = [0; MOST_RECORDS];
    let found = &mut found[..count];
    walk_constraints(&table, assignment, reading, found)?;
    verdicts[..count].copy_from_slice(found);
    Ok(Answer {
        steps: steps as u32,
        length: count as u32,
        all_true: found.iter().all(|&verdict| verdict == Truth::True as u8),
        ..Answer::default()
    })
}

/// Refuses an assignment of the wrong length or with a value outside its
/// variable's domain.
fn within_domains(table: &Sound<'_>, assignment: &[i32]) -> Result<(), Refusal> {
    if assignment.len() != usize::from(table.variables) {
        return Err(Refusal::of_call(Reason::Assignment));
    }
    for (number, &value) in (0..table.variables).zip(assignment) {
        let variable = VariableNumber(number);
        let (low, high) = table.domain(variable);
        if value < low || high < value {
            let record = table.variable_record(variable);
            return Err(Refusal::at(Reason::Assignment, record));
        }
    }
    Ok(())
}

/// Walks all constraints. Refuses if a value beyond the limit was met.
fn walk_constraints(
    table: &Sound<'_>,
    assignment: &[i32],
    reading: Reading,
    found: &mut [u8],
) -> Result<(), Refusal> {
    let mut walk = Walk {
        table,
        assignment,
        reading,
        slots: [0; MOST_SLOTS as usize],
        beyond: false,
    };
    for (verdict, node) in found.iter_mut().zip(table.constraint_nodes()) {
        *verdict = walk.truth(node) as u8;
    }
    if walk.beyond {
        return Err(Refusal::of_call(Reason::Limit));
    }
    Ok(())
}

/// The value of a Boolean node. The discriminants are the verdict bytes.
#[derive(Clone, Copy, Debug, PartialEq, Eq)]
enum Truth {
    False = 0,
    True = 1,
    Undefined = 2,
}

impl Truth {
    #[inline]
    fn of(holds: bool) -> Truth {
        if holds {
            Truth::True
        } else {
            Truth::False
        }
    }

    #[inline]
    fn negated(self) -> Truth {
        match self {
            Truth::False => Truth::True,
            Truth::True => Truth::False,
            Truth::Undefined => Truth::Undefined,
        }
    }
}

/// The walk over the nodes. It takes no short cuts.
struct Walk<'a> {
    table: &'a Sound<'a>,
    assignment: &'a [i32],
    reading: Reading,
    /// The values of the slots that are bound here.
    slots: [i32; MOST_SLOTS as usize],
    /// Whether an integer node had a value beyond the limit.
    beyond: bool,
}

impl Walk<'_> {
    /// The value of an integer node, `None` for undefined.
    fn integer(&mut self, node: NodeNumber) -> Option<i64> {
        let record = self.table.node(node);
        let value = match record.kind {
            kinds::CONSTANT => i64::from(record.x),
            kinds::VARIABLE => self.variable(record.variable_x()),
            kinds::SLOT => i64::from(self.slots[usize::from(record.slot_x().0)]),
            kinds::NEGATE => -self.integer(record.node_x())?,
            kinds::BOOL_TO_INT => match self.truth(record.node_x()) {
                Truth::False => 0,
                Truth::True => 1,
                Truth::Undefined => return None,
            },
            kinds::LOOKUP => {
                let index = self.integer(record.node_y())?;
                self.element(record, index)?
            }
            kinds::SUM => self.sum(record)?,
            kind => {
                let left = self.integer(record.node_x());
                let right = self.integer(record.node_y());
                arithmetic(kind, left?, right?)?
            }
        };
        Some(self.met(value))
    }

    /// Notes a value beyond the limit. It is then cut down to the limit, so
    /// that no later arithmetic overflows: the answer is a refusal anyway.
    #[inline]
    fn met(&mut self, value: i64) -> i64 {
        if (-VALUE_LIMIT..=VALUE_LIMIT).contains(&value) {
            return value;
        }
        self.beyond = true;
        value.clamp(-VALUE_LIMIT, VALUE_LIMIT)
    }

    #[inline]
    fn variable(&self, variable: VariableNumber) -> i64 {
        i64::from(self.assignment[usize::from(variable.0)])
    }

    /// The element that a lookup finds, `None` if the index is outside.
    #[inline]
    fn element(&self, lookup: Record, index: i64) -> Option<i64> {
        let element = self.table.array(lookup.array_x()).element(index)?;
        Some(match element.kind {
            0 => i64::from(element.x),
            _ => self.variable(element.variable_x()),
        })
    }

    /// The sum of the body over the slot's values, `None` if the body is
    /// undefined for one of them.
    ///
    /// No overflow: 10,000 values of at most 2,000,000,000 fit.
    fn sum(&mut self, record: Record) -> Option<i64> {
        let slot = usize::from(record.slot_x().0);
        let outer = self.slots[slot];
        let (first, last) = self.table.range(record.slot_x());
        let mut total = Some(0);
        for value in first..last + 1 {
            self.slots[slot] = value;
            let body = self.integer(record.node_y());
            total = total.and_then(|sum| Some(sum + body?));
        }
        self.slots[slot] = outer;
        total
    }

    /// The value of a Boolean node.
    fn truth(&mut self, node: NodeNumber) -> Truth {
        let record = self.table.node(node);
        match record.kind {
            kinds::TRUTH => Truth::of(record.x == 1),
            kinds::BOOL_VARIABLE => Truth::of(self.variable(record.variable_x()) == 1),
            kinds::BOOL_LOOKUP => {
                let index = self.integer(record.node_y());
                let element = index.and_then(|index| self.element(record, index));
                self.atom(element.map(|element| element == 1))
            }
            kinds::NOT => self.truth(record.node_x()).negated(),
            kinds::AND | kinds::OR | kinds::IMPLIES | kinds::IFF => {
                let left = self.truth(record.node_x());
                let right = self.truth(record.node_y());
                connective(self.reading, record.kind, left, right)
            }
            kinds::EXISTS | kinds::FORALL => self.quantifier(record),
            kind => {
                let left = self.integer(record.node_x());
                let right = self.integer(record.node_y());
                self.atom(left.zip(right).map(|(a, b)| comparison(kind, a, b)))
            }
        }
    }

    /// The value of a comparison or Boolean lookup, `None` for an undefined
    /// operand or an index outside.
    #[inline]
    fn atom(&self, holds: Option<bool>) -> Truth {
        match (holds, self.reading) {
            (Some(holds), _) => Truth::of(holds),
            (None, Reading::Strict | Reading::Kleene) => Truth::Undefined,
            (None, Reading::Relational) => Truth::False,
        }
    }

    /// A quantifier is the reading's or, or its and, over the slot's values.
    fn quantifier(&mut self, record: Record) -> Truth {
        let slot = usize::from(record.slot_x().0);
        let outer = self.slots[slot];
        let (first, last) = self.table.range(record.slot_x());
        let (kind, empty) = match record.kind {
            kinds::EXISTS => (kinds::OR, Truth::False),
            _ => (kinds::AND, Truth::True),
        };
        let mut result = empty;
        for value in first..last + 1 {
            self.slots[slot] = value;
            let body = self.truth(record.node_y());
            result = connective(self.reading, kind, result, body);
        }
        self.slots[slot] = outer;
        result
    }
}

/// A binary integer operation, `None` for div and mod by 0.
///
/// The operands are within the limit, so the product fits.
#[inline]
fn arithmetic(kind: u8, left: i64, right: i64) -> Option<i64> {
    match kind {
        kinds::ADD => Some(left + right),
        kinds::SUBTRACT => Some(left - right),
        kinds::MULTIPLY => Some(left * right),
        kinds::DIV => left.checked_div(right),
        kinds::MOD => left.checked_rem(right),
        kinds::MIN => Some(left.min(right)),
        _ => Some(left.max(right)),
    }
}

#[inline]
fn comparison(kind: u8, left: i64, right: i64) -> bool {
    match kind {
        kinds::EQUAL => left == right,
        kinds::UNEQUAL => left != right,
        kinds::AT_MOST => left <= right,
        _ => left < right,
    }
}

/// A binary connective. Kleene's tables are ordinary logic where nothing is
/// undefined, so they serve the relational reading too.
#[inline]
fn connective(reading: Reading, kind: u8, left: Truth, right: Truth) -> Truth {
    let undefined = left == Truth::Undefined || right == Truth::Undefined;
    if undefined && reading == Reading::Strict {
        return Truth::Undefined;
    }
    match kind {
        kinds::AND => and(left, right),
        kinds::OR => and(left.negated(), right.negated()).negated(),
        kinds::IMPLIES => and(left, right.negated()).negated(),
        _ if undefined => Truth::Undefined,
        _ => Truth::of(left == right),
    }
}

/// Kleene's and.
#[inline]
fn and(left: Truth, right: Truth) -> Truth {
    match (left, right) {
        (Truth::False, _) | (_, Truth::False) => Truth::False,
        (Truth::True, Truth::True) => Truth::True,
        _ => Truth::Undefined,
    }
}
