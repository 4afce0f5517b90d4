//! Faulty tables, made from sound ones.

use crate::prng::Random;
use barfigol_format::kinds::{self, Field};
use barfigol_format::{bytes_of, rows_of, Node, Row, Table, Type, ROW_BYTES};

/// A table with one fault, and the refusal that the fault calls for.
#[derive(Clone, Debug, PartialEq, Eq)]
pub struct Damaged {
    /// The faulty table.
    pub bytes: Vec<u8>,
    /// The number of the refusal, 1 to 6.
    pub number: u32,
    /// The record of the refusal.
    pub record: u32,
}

/// Puts one fault into a sound table. All six numbers come up.
pub fn damaged(random: &mut Random, table: &Table) -> Damaged {
    loop {
        let number = 1 + random.below(6) as u32;
        if let Some(damaged) = with_fault(random, table, number) {
            return damaged;
        }
    }
}

/// Puts a fault of a certain number into a sound table. There is none if the
/// table has no place for it.
pub fn with_fault(random: &mut Random, table: &Table, number: u32) -> Option<Damaged> {
    let (bytes, record) = match number {
        1 => (wrong_length(random, table), 0),
        2 => wrong_order(random, table)?,
        3 => wrong_field(random, table),
        4 => wrong_name(random, table)?,
        5 => wrong_type(random, table)?,
        _ => free_slot(random, table),
    };
    let record = record as u32;
    Some(Damaged {
        bytes,
        number,
        record,
    })
}

/// Changes a table at some random places. Nothing is known of the result.
pub fn scrambled(random: &mut Random, table: &Table) -> Vec<u8> {
    let mut rows = table.rows();
    for _ in 0..1 + random.below(3) {
        scramble_rows(random, &mut rows);
    }
    if random.percent(85) {
        count_again(&mut rows);
    }
    let mut bytes = bytes_of(&rows);
    if random.percent(3) {
        let length = random.below(bytes.len() + 1);
        bytes.truncate(length);
    }
    bytes
}

fn scramble_rows(random: &mut Random, rows: &mut Vec<Row>) {
    if rows.is_empty() {
        return;
    }
    let place = random.below(rows.len());
    let other = random.below(rows.len());
    match random.below(8) {
        0 => rows.swap(place, other),
        1 => {
            rows.remove(place);
        }
        2 => rows.insert(other, rows[place]),
        3 => rows[place].mark = random.pick(&MARKS),
        4 => rows[place].kind = random.within(0..=31) as u8,
        5 => rows[place].aux = random.within(0..=1) as u8,
        6 => rows[place].x = scrambled_number(random, rows.len()),
        _ => rows[place].y = scrambled_number(random, rows.len()),
    }
}

const MARKS: [[u8; 2]; 8] = [
    *b"HD", *b"VR", *b"SL", *b"AR", *b"EL", *b"ND", *b"CN", *b"nd",
];

fn scrambled_number(random: &mut Random, rows: usize) -> i32 {
    let edges = [
        -1,
        0,
        1,
        2,
        65_536,
        1_000_000_000,
        2_000_000_000,
        i32::MAX,
        i32::MIN,
    ];
    if random.percent(30) {
        random.pick(&edges)
    } else {
        random.within(-1..=rows as i32)
    }
}

/// Sets the head's count right.
fn count_again(rows: &mut [Row]) {
    let count = rows.len() as i32;
    if let Some(head) = rows.first_mut() {
        head.x = count;
    }
}

/// The bytes of rows whose number changed.
fn recounted(mut rows: Vec<Row>) -> Vec<u8> {
    count_again(&mut rows);
    bytes_of(&rows)
}

fn wrong_length(random: &mut Random, table: &Table) -> Vec<u8> {
    let mut bytes = table.bytes();
    let length = match random.below(4) {
        0 => random.below(ROW_BYTES),
        1 => bytes.len() + 1 + random.below(ROW_BYTES - 1),
        2 => bytes.len() - 1 - random.below(ROW_BYTES - 1),
        _ => 60_000 + random.pick(&[1, 12]),
    };
    bytes.resize(length, 0);
    bytes
}

fn wrong_order(random: &mut Random, table: &Table) -> Option<(Vec<u8>, usize)> {
    let mut rows = table.rows();
    let record = match random.below(5) {
        0 => {
            let record = random.below(rows.len());
            rows[record].mark = random.pick(&[*b"XX", *b"hd", [0, 0], *b"DN", [255, 68]]);
            record
        }
        1 => {
            let record = 1 + random.below(rows.len());
            rows.insert(record, rows[0]);
            record
        }
        2 => {
            // No element is due at these places.
            let record = random.pick(&[1, table.first_node_record(), rows.len()]);
            rows.insert(record, Row::new(b"EL", 0, 0, 0));
            record
        }
        3 => return missing_element(random, table),
        _ => {
            let record = rows.len();
            let early = random.pick(&[*b"VR", *b"SL", *b"AR"]);
            let row = *rows.iter().find(|row| row.mark == early)?;
            if table.nodes.is_empty() {
                return None;
            }
            rows.push(row);
            record
        }
    };
    Some((recounted(rows), record))
}

/// An array lacks an element, so the record after its last one is refused, or
/// the one after the end of the table.
fn missing_element(random: &mut Random, table: &Table) -> Option<(Vec<u8>, usize)> {
    let mut rows = table.rows();
    let arrays: Vec<usize> = (0..rows.len())
        .filter(|&record| rows[record].mark == *b"AR")
        .collect();
    if arrays.is_empty() {
        return None;
    }
    let array = random.pick(&arrays);
    let elements = rows[array].y as usize;
    rows.remove(array + 1 + random.below(elements));
    Some((recounted(rows), array + elements))
}

fn wrong_field(random: &mut Random, table: &Table) -> (Vec<u8>, usize) {
    let mut rows = table.rows();
    let record = random.below(rows.len());
    let mut faults = faulty_rows(&rows, record);
    let with_aux = Row {
        aux: random.pick(&[1, 2, 255]),
        ..rows[record]
    };
    faults.push(with_aux);
    rows[record] = random.pick(&faults);
    (bytes_of(&rows), record)
}

/// Versions of a record with a kind, a field or a number that is not allowed.
fn faulty_rows(rows: &[Row], record: usize) -> Vec<Row> {
    let row = rows[record];
    let (kind, x, y) = (row.kind, row.x, row.y);
    let fields: Vec<(u8, i32, i32)> = match &row.mark {
        b"HD" => vec![
            (0, x, y),
            (2, x, y),
            (kind, x + 1, y),
            (kind, x - 1, y),
            (kind, x, 1),
        ],
        b"VR" if kind == 0 => vec![(2, x, y), (0, 0, 0), (0, 1, 1), (0, -1, 1), (0, 0, 2)],
        b"VR" => vec![(2, x, y), (255, x, y), (1, 5, 4), (1, 1, 0)],
        b"SL" => vec![
            (1, x, y),
            (0, -1_000_000_001, y),
            (0, 1_000_000_001, y),
            (0, x, 1_000_000_001),
            (0, x, -1_000_000_001),
            (0, x, x + 10_000),
        ],
        b"AR" => vec![
            (2, x, y),
            (kind, -1_000_000_001, y),
            (kind, 1_000_000_001, y),
            (kind, x, 0),
            (kind, x, -1),
            (kind, x, 1_025),
        ],
        b"EL" => faulty_elements(rows, record),
        b"ND" => faulty_nodes(row),
        _ => vec![(1, x, y), (0, x, 1), (0, x, -1)],
    };
    let faulty = |&(kind, x, y): &(u8, i32, i32)| Row { kind, x, y, ..row };
    let changed = |row: &Row| *row != rows[record];
    fields.iter().map(faulty).filter(changed).collect()
}

fn faulty_elements(rows: &[Row], record: usize) -> Vec<(u8, i32, i32)> {
    let Row { kind, x, .. } = rows[record];
    let mut fields = vec![(2, x, 0), (255, x, 0), (kind, x, 1), (kind, x, -1)];
    let array = rows[..record].iter().rev().find(|row| row.mark == *b"AR");
    if array.map_or(false, |array| array.kind == 0) {
        fields.extend([(0, 2, 0), (0, -1, 0)]);
    }
    fields
}

fn faulty_nodes(row: Row) -> Vec<(u8, i32, i32)> {
    let Row { kind, x, y, .. } = row;
    let mut fields = vec![(0, x, y), (18, x, y), (19, x, y), (31, x, y), (255, x, y)];
    if let Some(shape) = kinds::find(kind) {
        if shape.y == Field::Unused {
            fields.extend([(kind, x, 1), (kind, x, -1)]);
        }
        if shape.x == Field::Truth {
            fields.extend([(kind, 2, y), (kind, -1, y)]);
        }
    }
    fields
}

/// A field of a record that names something.
#[derive(Clone, Copy)]
struct Naming {
    record: usize,
    in_y: bool,
    field: Field,
    /// How many things there are to name.
    count: usize,
}

impl Naming {
    fn set(self, rows: &mut [Row], number: i32) {
        let row = &mut rows[self.record];
        if self.in_y {
            row.y = number;
        } else {
            row.x = number;
        }
    }
}

/// All fields of a table that name something.
fn namings(table: &Table) -> Vec<Naming> {
    let mut found = Vec::new();
    let mut element_type = Type::Bool;
    for (record, row) in table.rows().iter().enumerate() {
        let node = record.wrapping_sub(table.first_node_record());
        let (x, y) = match &row.mark {
            b"AR" => {
                element_type = if row.kind == 0 {
                    Type::Bool
                } else {
                    Type::Integer
                };
                (Field::Unused, Field::Unused)
            }
            b"EL" if row.kind == 1 => (Field::Variable(element_type), Field::Unused),
            b"ND" => table.nodes[node].fields(),
            b"CN" => (Field::Node(Type::Bool), Field::Unused),
            _ => (Field::Unused, Field::Unused),
        };
        for (in_y, field) in [(false, x), (true, y)] {
            let count = match field {
                Field::Unused | Field::Integer | Field::Truth => continue,
                Field::Variable(_) => table.variables.len(),
                Field::Slot => table.slots.len(),
                Field::Array(_) => table.arrays.len(),
                Field::Node(_) => node.min(table.nodes.len()),
            };
            found.push(Naming {
                record,
                in_y,
                field,
                count,
            });
        }
    }
    found
}

fn wrong_name(random: &mut Random, table: &Table) -> Option<(Vec<u8>, usize)> {
    let namings = namings(table);
    if namings.is_empty() {
        return None;
    }
    let naming = random.pick(&namings);
    let count = naming.count as i32;
    let nothing = [
        count,
        count + 1,
        -1,
        -count - 1,
        256 + count,
        65_536,
        65_535 + count,
        i32::MAX,
        i32::MIN,
    ];
    let mut rows = table.rows();
    naming.set(&mut rows, random.pick(&nothing));
    Some((bytes_of(&rows), naming.record))
}

fn wrong_type(random: &mut Random, table: &Table) -> Option<(Vec<u8>, usize)> {
    let mut choices = Vec::new();
    for naming in namings(table) {
        for number in 0..naming.count {
            let mistyped = match naming.field {
                Field::Variable(of) => table.variables[number].of != of,
                Field::Array(of) => table.arrays[number].of != of,
                Field::Node(of) => table.nodes[number].yields() != of,
                _ => false,
            };
            if mistyped {
                choices.push((naming, number as i32));
            }
        }
    }
    if choices.is_empty() {
        return None;
    }
    let (naming, number) = random.pick(&choices);
    let mut rows = table.rows();
    naming.set(&mut rows, number);
    Some((bytes_of(&rows), naming.record))
}

/// A constraint on a node with a free slot, after the sound ones.
fn free_slot(random: &mut Random, table: &Table) -> (Vec<u8>, usize) {
    let mut table = table.clone();
    if table.slots.is_empty() {
        table = table.slot(0, 1);
    }
    let slots = table.slots.len() as i32;
    let slot = random.within(0..=slots - 1);
    let leaf = table.push(Node::slot(slot));
    let mut open = table.push(Node::at_most(leaf, leaf));
    if random.percent(50) {
        // Bound on one side only.
        let closed = table.push(Node::exists(slot, open));
        open = table.push(Node::and(closed, open));
    }
    if slots > 1 && random.percent(50) {
        let other = (slot + 1) % slots;
        open = table.push(Node::forall(other, open));
    }
    let record = table.records();
    (table.constraint(open).bytes(), record)
}

/// Makes a faulty table shorter while it still fails.
///
/// ```
/// use barfigol_tables::{damage, rows_of, trials};
///
/// // The shortest list of records with a CN.
/// let short = damage::shrink(&trials::p4().bytes(), &mut |bytes| {
///     rows_of(bytes).iter().any(|row| row.mark == *b"CN")
/// });
/// assert_eq!(short.len(), 12);
/// ```
pub fn shrink(bytes: &[u8], fails: &mut dyn FnMut(&[u8]) -> bool) -> Vec<u8> {
    let mut smallest = bytes.to_vec();
    let mut block = smallest.len() / ROW_BYTES / 2 + 1;
    loop {
        match without_block(&smallest, block, fails) {
            Some(fewer) => smallest = fewer,
            None if block == 1 => return smallest,
            None => block = (block + 1) / 2,
        }
    }
}

/// Leaves out some neighbouring records, the last ones first.
fn without_block(
    bytes: &[u8],
    block: usize,
    fails: &mut dyn FnMut(&[u8]) -> bool,
) -> Option<Vec<u8>> {
    let rows = rows_of(bytes);
    for start in (0..rows.len()).step_by(block).rev() {
        let mut fewer = rows.clone();
        fewer.drain(start..rows.len().min(start + block));
        for candidate in [recounted(fewer.clone()), bytes_of(&fewer)] {
            if fails(&candidate) {
                return Some(candidate);
            }
        }
    }
    None
}
