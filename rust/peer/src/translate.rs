//! Translation: a table with the same true constraints and nothing undefined.
//!
//! Each node gets two companions. An integer node has V, its value, and D,
//! whether it is defined. A Boolean node has P, whether it is true, and N,
//! whether it is false.

use crate::answer::{Answer, Reason, Refusal};
use crate::kinds;
use crate::reading::Reading;
use crate::record::{NodeNumber, Record, SlotNumber, MOST_BYTES, MOST_RECORDS, RECORD_BYTES};
use crate::table::Sound;
use crate::{bounds, check};

/// Writes the translation of a table under a reading.
pub(crate) fn translate(choice: u32, table: &[u8], out: &mut [u8]) -> Result<Answer, Refusal> {
    let reading = Reading::chosen(choice)?;
    let table = check::sound(table)?;
    bounds::within_limit(&table)?;
    let length = translated_records(&table, reading) * RECORD_BYTES;
    if length > out.len() || length > MOST_BYTES {
        return Err(Refusal::of_call(Reason::Room));
    }
    Translator::new(&table, reading, &mut out[..length]).write();
    Ok(Answer {
        length: length as u32,
        ..Answer::default()
    })
}

/// How many records the translation has.
fn translated_records(table: &Sound<'_>, reading: Reading) -> usize {
    let nodes: usize = table
        .node_numbers()
        .map(|node| companion_records(table.node(node).kind, reading))
        .sum();
    usize::from(table.first_node) + nodes + usize::from(table.constraints)
}

/// How many records the companions of a node of this kind take.
#[inline]
fn companion_records(kind: u8, reading: Reading) -> usize {
    let (strict, relational) = (reading == Reading::Strict, reading == Reading::Relational);
    match kind {
        kinds::NOT => 0,
        kinds::NEGATE => 1,
        kinds::DIV | kinds::MOD => 9,
        kinds::LOOKUP => 11,
        kinds::BOOL_LOOKUP if relational => 13,
        kinds::BOOL_LOOKUP => 25,
        kinds::EQUAL | kinds::UNEQUAL | kinds::AT_MOST | kinds::BELOW if relational => 4,
        kinds::EQUAL | kinds::UNEQUAL | kinds::AT_MOST | kinds::BELOW => 7,
        kinds::IFF => 6,
        kinds::AND | kinds::OR | kinds::IMPLIES if strict => 6,
        kinds::EXISTS | kinds::FORALL if strict => 5,
        _ => 2,
    }
}

/// The companions of a node in the translated table: V and D, or P and N.
#[derive(Clone, Copy, Debug)]
struct Companions(NodeNumber, NodeNumber);

/// Writes records one after the other and numbers the nodes among them.
struct Writer<'a> {
    out: std::slice::ChunksExactMut<'a, u8>,
    next: u16,
}

impl Writer<'_> {
    #[inline]
    fn record(&mut self, record: Record) {
        let room = self.out.next().expect("the size pass left room");
        room.copy_from_slice(&record.bytes());
    }

    /// Writes a node and gives its number.
    #[inline]
    fn node(&mut self, kind: u8, x: i32, y: i32) -> NodeNumber {
        self.record(Record::new(b"ND", kind, x, y));
        let number = NodeNumber(self.next);
        self.next += 1;
        number
    }

    fn constant(&mut self, value: i32) -> NodeNumber {
        self.node(kinds::CONSTANT, value, 0)
    }

    fn always(&mut self) -> NodeNumber {
        self.node(kinds::TRUTH, 1, 0)
    }

    fn unary(&mut self, kind: u8, a: NodeNumber) -> NodeNumber {
        self.node(kind, i32::from(a.0), 0)
    }

    fn binary(&mut self, kind: u8, a: NodeNumber, b: NodeNumber) -> NodeNumber {
        self.node(kind, i32::from(a.0), i32::from(b.0))
    }

    fn over(&mut self, kind: u8, slot: SlotNumber, body: NodeNumber) -> NodeNumber {
        self.node(kind, i32::from(slot.0), i32::from(body.0))
    }

    fn and(&mut self, a: NodeNumber, b: NodeNumber) -> NodeNumber {
        self.binary(kinds::AND, a, b)
    }

    fn or(&mut self, a: NodeNumber, b: NodeNumber) -> NodeNumber {
        self.binary(kinds::OR, a, b)
    }

    fn not(&mut self, a: NodeNumber) -> NodeNumber {
        self.unary(kinds::NOT, a)
    }
}

/// The writing pass.
struct Translator<'a> {
    table: &'a Sound<'a>,
    reading: Reading,
    out: Writer<'a>,
    /// The records of the whole translation.
    records: usize,
    /// V or P of each node handled so far.
    first: [NodeNumber; MOST_RECORDS],
    /// D or N of each node handled so far.
    second: [NodeNumber; MOST_RECORDS],
}

impl<'a> Translator<'a> {
    /// `out` is exactly as long as the translation.
    fn new(table: &'a Sound<'a>, reading: Reading, out: &'a mut [u8]) -> Translator<'a> {
        Translator {
            table,
            reading,
            records: out.len() / RECORD_BYTES,
            out: Writer {
                out: out.chunks_exact_mut(RECORD_BYTES),
                next: 0,
            },
            first: [NodeNumber(0); MOST_RECORDS],
            second: [NodeNumber(0); MOST_RECORDS],
        }
    }

    fn write(&mut self) {
        self.out
            .record(Record::new(b"HD", 1, self.records as i32, 0));
        for declaration in crate::record::records(self.table.declarations()) {
            self.out.record(declaration);
        }
        for node in self.table.node_numbers() {
            let Companions(first, second) = self.companions(self.table.node(node));
            self.first[usize::from(node.0)] = first;
            self.second[usize::from(node.0)] = second;
        }
        for node in self.table.constraint_nodes() {
            let Companions(is_true, _) = self.of(node);
            let constraint = Record::new(b"CN", 0, i32::from(is_true.0), 0);
            self.out.record(constraint);
        }
    }

    /// The companions of a node that is already handled.
    #[inline]
    fn of(&self, node: NodeNumber) -> Companions {
        let place = usize::from(node.0);
        Companions(self.first[place], self.second[place])
    }

    /// Writes the companions of a node.
    fn companions(&mut self, record: Record) -> Companions {
        match record.kind {
            kinds::CONSTANT | kinds::VARIABLE | kinds::SLOT => self.integer_leaf(record),
            kinds::TRUTH | kinds::BOOL_VARIABLE => self.bool_leaf(record),
            kinds::NEGATE => self.negate(record),
            kinds::DIV | kinds::MOD => self.division(record),
            kinds::BOOL_TO_INT => self.bool_to_int(record),
            kinds::LOOKUP => self.lookup(record),
            kinds::BOOL_LOOKUP => self.bool_lookup(record),
            kinds::SUM => self.sum(record),
            kinds::NOT => self.not(record),
            kinds::IFF => self.iff(record),
            kinds::AND | kinds::OR | kinds::IMPLIES => self.connective(record),
            kinds::EXISTS | kinds::FORALL => self.quantifier(record),
            kinds::EQUAL | kinds::UNEQUAL | kinds::AT_MOST | kinds::BELOW => {
                self.comparison(record)
            }
            _ => self.arithmetic(record),
        }
    }

    fn integer_leaf(&mut self, record: Record) -> Companions {
        let value = self.out.node(record.kind, record.x, record.y);
        let defined = self.out.always();
        Companions(value, defined)
    }

    fn bool_leaf(&mut self, record: Record) -> Companions {
        let is_true = self.out.node(record.kind, record.x, record.y);
        let is_false = self.out.not(is_true);
        Companions(is_true, is_false)
    }

    /// V = Va op Vb, D = Da ∧ Db.
    fn arithmetic(&mut self, record: Record) -> Companions {
        let Companions(va, da) = self.of(record.node_x());
        let Companions(vb, db) = self.of(record.node_y());
        let value = self.out.binary(record.kind, va, vb);
        let defined = self.out.and(da, db);
        Companions(value, defined)
    }

    /// V = −Va, D = Da.
    fn negate(&mut self, record: Record) -> Companions {
        let Companions(va, da) = self.of(record.node_x());
        let value = self.out.unary(kinds::NEGATE, va);
        Companions(value, da)
    }

    /// V = Va op (Vb + boolToInt(Vb = 0)), D = (Da ∧ Db) ∧ (Vb ≠ 0).
    fn division(&mut self, record: Record) -> Companions {
        let Companions(va, da) = self.of(record.node_x());
        let Companions(vb, db) = self.of(record.node_y());
        let out = &mut self.out;
        let zero = out.constant(0);
        let is_zero = out.binary(kinds::EQUAL, vb, zero);
        let correction = out.unary(kinds::BOOL_TO_INT, is_zero);
        let divisor = out.binary(kinds::ADD, vb, correction);
        let value = out.binary(record.kind, va, divisor);
        let operands = out.and(da, db);
        let zero = out.constant(0);
        let nonzero = out.binary(kinds::UNEQUAL, vb, zero);
        let defined = out.and(operands, nonzero);
        Companions(value, defined)
    }

    /// V = boolToInt(Pa), D = Pa ∨ Na.
    fn bool_to_int(&mut self, record: Record) -> Companions {
        let Companions(pa, na) = self.of(record.node_x());
        let value = self.out.unary(kinds::BOOL_TO_INT, pa);
        let defined = self.out.or(pa, na);
        Companions(value, defined)
    }

    /// V = sum of Va, D = forall of Da.
    fn sum(&mut self, record: Record) -> Companions {
        let Companions(va, da) = self.of(record.node_y());
        let value = self.out.over(kinds::SUM, record.slot_x(), va);
        let defined = self.out.over(kinds::FORALL, record.slot_x(), da);
        Companions(value, defined)
    }

    /// g = (Di ∧ (l ≤ Vi)) ∧ (Vi ≤ u): the index is defined and inside.
    fn inside(&mut self, lookup: Record) -> NodeNumber {
        let array = self.table.array(lookup.array_x());
        let Companions(vi, di) = self.of(lookup.node_y());
        let first = self.out.constant(array.first);
        let from_first = self.out.binary(kinds::AT_MOST, first, vi);
        let lower = self.out.and(di, from_first);
        let last = self.out.constant(array.last());
        let to_last = self.out.binary(kinds::AT_MOST, vi, last);
        self.out.and(lower, to_last)
    }

    /// h = A[max(l, min(u, Vi))]: the element at the nearest index inside.
    fn nearest(&mut self, lookup: Record) -> NodeNumber {
        let array = self.table.array(lookup.array_x());
        let Companions(vi, _) = self.of(lookup.node_y());
        let first = self.out.constant(array.first);
        let last = self.out.constant(array.last());
        let capped = self.out.binary(kinds::MIN, last, vi);
        let index = self.out.binary(kinds::MAX, first, capped);
        self.out.node(lookup.kind, lookup.x, i32::from(index.0))
    }

    /// V = h, D = g.
    fn lookup(&mut self, record: Record) -> Companions {
        let value = self.nearest(record);
        let defined = self.inside(record);
        Companions(value, defined)
    }

    /// P = g ∧ h, N = g ∧ ¬h; relational N = ¬P.
    fn bool_lookup(&mut self, record: Record) -> Companions {
        let inside = self.inside(record);
        let element = self.nearest(record);
        let is_true = self.out.and(inside, element);
        if self.reading == Reading::Relational {
            let is_false = self.out.not(is_true);
            return Companions(is_true, is_false);
        }
        let inside = self.inside(record);
        let element = self.nearest(record);
        let negated = self.out.not(element);
        let is_false = self.out.and(inside, negated);
        Companions(is_true, is_false)
    }

    /// P = (Da ∧ Db) ∧ (Va op Vb), N = (Da ∧ Db) ∧ ¬(Va op Vb); relational
    /// N = ¬P.
    fn comparison(&mut self, record: Record) -> Companions {
        let Companions(va, da) = self.of(record.node_x());
        let Companions(vb, db) = self.of(record.node_y());
        let out = &mut self.out;
        let defined = out.and(da, db);
        let holds = out.binary(record.kind, va, vb);
        let is_true = out.and(defined, holds);
        if self.reading == Reading::Relational {
            let is_false = out.not(is_true);
            return Companions(is_true, is_false);
        }
        let defined = out.and(da, db);
        let holds = out.binary(record.kind, va, vb);
        let fails = out.not(holds);
        let is_false = out.and(defined, fails);
        Companions(is_true, is_false)
    }

    /// P = Na, N = Pa. Nothing is written.
    fn not(&mut self, record: Record) -> Companions {
        let Companions(pa, na) = self.of(record.node_x());
        Companions(na, pa)
    }

    /// P = (Pa ∧ Pb) ∨ (Na ∧ Nb), N = (Pa ∧ Nb) ∨ (Na ∧ Pb).
    fn iff(&mut self, record: Record) -> Companions {
        let Companions(pa, na) = self.of(record.node_x());
        let Companions(pb, nb) = self.of(record.node_y());
        let out = &mut self.out;
        let both_true = out.and(pa, pb);
        let both_false = out.and(na, nb);
        let is_true = out.or(both_true, both_false);
        let only_a = out.and(pa, nb);
        let only_b = out.and(na, pb);
        let is_false = out.or(only_a, only_b);
        Companions(is_true, is_false)
    }

    /// and: Pa ∧ Pb; Na ∨ Nb. or: Pa ∨ Pb; Na ∧ Nb. implies: Na ∨ Pb; Pa ∧ Nb.
    /// Under the strict reading B ∧ stands before each ∨.
    fn connective(&mut self, record: Record) -> Companions {
        let Companions(pa, na) = self.of(record.node_x());
        let Companions(pb, nb) = self.of(record.node_y());
        let sides = [Companions(pa, na), Companions(pb, nb)];
        match record.kind {
            kinds::AND => {
                let is_true = self.out.and(pa, pb);
                let is_false = self.guarded_or(sides, na, nb);
                Companions(is_true, is_false)
            }
            kinds::OR => {
                let is_true = self.guarded_or(sides, pa, pb);
                let is_false = self.out.and(na, nb);
                Companions(is_true, is_false)
            }
            _ => {
                let is_true = self.guarded_or(sides, na, pb);
                let is_false = self.out.and(pa, nb);
                Companions(is_true, is_false)
            }
        }
    }

    /// a ∨ b; strict B ∧ (a ∨ b) with B = (Pa ∨ Na) ∧ (Pb ∨ Nb).
    fn guarded_or(&mut self, sides: [Companions; 2], a: NodeNumber, b: NodeNumber) -> NodeNumber {
        if self.reading != Reading::Strict {
            return self.out.or(a, b);
        }
        let [Companions(pa, na), Companions(pb, nb)] = sides;
        let left = self.out.or(pa, na);
        let right = self.out.or(pb, nb);
        let both_defined = self.out.and(left, right);
        let either = self.out.or(a, b);
        self.out.and(both_defined, either)
    }

    /// exists: ∃Pa; ∀Na. forall: ∀Pa; ∃Na. Under the strict reading
    /// (∀(Pa ∨ Na)) ∧ stands before each ∃.
    fn quantifier(&mut self, record: Record) -> Companions {
        let slot = record.slot_x();
        let body = self.of(record.node_y());
        let Companions(pa, na) = body;
        if record.kind == kinds::EXISTS {
            let is_true = self.guarded_exists(slot, body, pa);
            let is_false = self.out.over(kinds::FORALL, slot, na);
            Companions(is_true, is_false)
        } else {
            let is_true = self.out.over(kinds::FORALL, slot, pa);
            let is_false = self.guarded_exists(slot, body, na);
            Companions(is_true, is_false)
        }
    }

    /// ∃a; strict (∀(Pa ∨ Na)) ∧ ∃a.
    fn guarded_exists(&mut self, slot: SlotNumber, body: Companions, a: NodeNumber) -> NodeNumber {
        if self.reading != Reading::Strict {
            return self.out.over(kinds::EXISTS, slot, a);
        }
        let Companions(pa, na) = body;
        let defined = self.out.or(pa, na);
        let always_defined = self.out.over(kinds::FORALL, slot, defined);
        let exists = self.out.over(kinds::EXISTS, slot, a);
        self.out.and(always_defined, exists)
    }
}
