//! What `barfigol_format` works out for explanations beside the library: its
//! first fault has the number and the record that the check gives, its
//! intervals are at the node that translation names.

use barfigol::{check, translate, Reading, Refusal};
use barfigol_format::{faults, intervals, pretty, show, Table};
use barfigol_tables::random::{self, Plan};
use barfigol_tables::suite::rounds;
use barfigol_tables::{damage, limits, trials, Random};

/// The first fault of a table, as the check would refuse it.
fn first_fault(bytes: &[u8]) -> Option<Refusal> {
    let faults = faults::of_table(bytes);
    let first = faults.first()?;
    Refusal::new(first.number, first.record.unwrap_or(0))
}

/// The refusal that a shown table marks.
fn marked_refusal(bytes: &[u8]) -> Option<Refusal> {
    let number_in = |note: &str| note.split(':').next()?.parse().ok();
    let mut found = Vec::new();
    let mut records = 0;
    for line in show(bytes).lines() {
        let note = match line.strip_prefix("# ") {
            Some(note) => note
                .trim_start_matches("the end: ")
                .strip_prefix("refused "),
            None => line.split("! refused ").nth(1),
        };
        let number = note.and_then(number_in);
        found.extend(number.and_then(|number| Refusal::new(number, records)));
        records += u32::from(!line.starts_with('#'));
    }
    assert!(found.len() < 2, "{found:?}");
    found.pop()
}

/// Says that the faults of a table agree with the check, and what is shown.
fn assert_agrees(bytes: &[u8]) -> Result<(), Refusal> {
    let checked = check(bytes);
    assert_eq!(first_fault(bytes), checked.err(), "\n{}", pretty(bytes));
    assert_eq!(marked_refusal(bytes), checked.err(), "\n{}", show(bytes));
    checked
}

#[test]
fn sound_tables_have_no_fault() {
    let mut random = Random::new(20);
    let two_arrays = Table::new().constants(0, &[1, 2]).constants(0, &[3]);
    let mut tables = vec![trials::p2(), two_arrays, trials::every_kind()];
    tables.extend((0..1_000).map(|_| random::table(&mut random, &Plan::MIDDLE)));
    for table in tables {
        let bytes = table.bytes();
        assert_eq!(assert_agrees(&bytes), Ok(()));
        assert_eq!(faults::of_table(&bytes), []);
    }
}

#[test]
fn tables_at_the_limits_agree() {
    let agree = |table: &Table| assert_agrees(&table.bytes()).is_ok();
    let tables = limits::both_sides();
    let sound = tables.iter().filter(|table| agree(table)).count();
    assert!(0 < sound && sound < tables.len());
}

#[test]
fn damaged_tables_agree() {
    let mut random = Random::new(21);
    let plan = Plan {
        wild: 5,
        ..Plan::MIDDLE
    };
    let mut seen = [0; 7];
    for _ in 0..rounds(4_000) {
        let table = random::table(&mut random, &plan);
        let bytes = match random.below(3) {
            0 => damage::scrambled(&mut random, &table),
            _ => damage::damaged(&mut random, &table).bytes,
        };
        let number = assert_agrees(&bytes).map_or_else(|refusal| refusal.number(), |()| 0);
        seen[number as usize] += 1;
    }
    assert!(seen.iter().all(|&times| times > 50), "{seen:?}");
}

/// One damage is one record at fault: what only follows from it is not told.
#[test]
fn no_fault_follows_from_another() {
    let mut random = Random::new(23);
    for number in 2..=6 {
        let mut left = rounds(2_000);
        while left > 0 {
            let table = random::table(&mut random, &Plan::MIDDLE);
            if let Some(damaged) = damage::with_fault(&mut random, &table, number) {
                let faults = faults::of_table(&damaged.bytes);
                let at = Some(damaged.record);
                let is_there = |fault: &faults::Fault| fault.record == at;
                let text = || format!("{faults:#?}\n{}", pretty(&damaged.bytes));
                assert!(faults.iter().all(is_there), "{}", text());
                assert!(faults.iter().any(|fault| fault.number == number));
                left -= 1;
            }
        }
    }
}

#[test]
fn every_byte_changed_agrees() {
    let sound = trials::every_kind().bytes();
    let mut refused = 0;
    for place in 0..sound.len() {
        for value in 0..=255 {
            let mut bytes = sound.clone();
            bytes[place] = value;
            let checked = check(&bytes).err();
            assert_eq!(first_fault(&bytes), checked, "\n{}", pretty(&bytes));
            refused += usize::from(checked.is_some());
        }
    }
    assert!(refused > 100 * sound.len(), "{refused}");
}

#[test]
fn arbitrary_bytes_agree() {
    let mut random = Random::new(24);
    for _ in 0..rounds(2_000) {
        let length = random.below(200);
        let mut bytes: Vec<u8> = (0..length).map(|_| random.bits() as u8).collect();
        if random.percent(50) && length >= 12 {
            let records = (length / 12) as u8;
            bytes[..12].copy_from_slice(&[b'H', b'D', 1, 0, records, 0, 0, 0, 0, 0, 0, 0]);
        }
        assert!(assert_agrees(&bytes).is_err() || length / 12 == 1);
    }
}

/// The first interval beyond the limit is at the record that translation names.
#[test]
fn intervals_agree_with_translation() {
    let mut random = Random::new(22);
    let plan = Plan {
        wild: 30,
        ..Plan::MIDDLE
    };
    let mut seen = 0;
    for _ in 0..4_000 {
        let table = random::table(&mut random, &plan);
        let bytes = table.bytes();
        let record = match translate(Reading::Relational, &bytes) {
            Err(Refusal::Limit { record }) => record.map(|record| record as usize),
            _ => None,
        };
        let beyond = intervals::first_beyond(&table);
        let found = beyond.map(|beyond| table.first_node_record() + beyond.node);
        assert_eq!(found, record, "\n{}", pretty(&bytes));
        seen += usize::from(record.is_some());
    }
    assert!(seen > 400, "number 8 came up {seen} times");
}

#[test]
fn the_sizes_are_the_same() {
    assert_eq!(barfigol::MOST_BYTES, barfigol_format::limits::MOST_BYTES);
    assert_eq!(barfigol::RECORD_BYTES, barfigol_format::ROW_BYTES);
}
