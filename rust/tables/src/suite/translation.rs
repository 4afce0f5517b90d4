//! A translation means what the table meant: by brute force over all
//! assignments of random small tables. BARFIGOL_LONG=1 tries many more.

use super::{for_random_tables, rounds, smallest_failure, Trial};
use crate::calls::{Calls, CHOICES, KLEENE, RELATIONAL, STRICT};
use crate::random::{self, Plan};
use crate::{cost, pretty, trials, Node, Random, Table};

/// All trials of this file.
pub const TRIALS: &[Trial] = trials![
    small_tables_keep_their_meaning,
    middle_tables_keep_their_meaning,
    tables_near_the_limits_keep_their_meaning,
    worked_examples_keep_their_meaning,
    a_wrong_translation_is_noticed_and_made_small,
    the_readings_agree_where_they_must,
    steps_are_those_of_the_definition,
    translations_can_be_translated,
    a_guard_stays_inside_its_binder,
];

/// Tables with more steps than this, over all assignments, are left out.
const MOST_STEPS: u128 = 100_000;

/// What a trial came upon.
#[derive(Default)]
struct Seen {
    tables: u64,
    assignments: u64,
    /// Verdicts of the tables before translation: false, true, undefined.
    verdicts: [u64; 3],
    /// Kinds that a compared constraint reaches.
    kinds: [bool; 31],
}

/// Translates a table under one choice and compares it with the table itself,
/// read under a choice.
fn compared(
    calls: &dyn Calls,
    translation: u32,
    reading: u32,
    table: &Table,
    seen: &mut Seen,
) -> Result<(), String> {
    let bytes = table.bytes();
    let out = match calls.translated(translation, &bytes) {
        Ok(out) => out,
        Err(answer) if answer.number == 8 || answer.number == 9 => return Ok(()),
        Err(answer) => return Err(format!("the translation is refused: {answer:?}")),
    };
    ensure!(
        calls.checked(&out) == (0, 0),
        "the check refuses the translation\n{}",
        pretty(&out)
    );
    let all: Vec<Vec<i32>> = table.assignments().collect();
    let steps = cost::steps(table).max(cost::steps(&Table::read(&out)));
    if steps.saturating_mul(all.len() as u128) > MOST_STEPS {
        return Ok(());
    }
    seen.tables += 1;
    note_kinds(table, seen);
    all.iter().try_for_each(|assignment| {
        compared_at(calls, assignment, reading, &bytes, &out, seen)
            .map_err(|why| format!("{why} at {assignment:?}, translated under {translation}"))
    })
}

/// Compares a table and its translation at one assignment.
fn compared_at(
    calls: &dyn Calls,
    assignment: &[i32],
    reading: u32,
    table: &[u8],
    out: &[u8],
    seen: &mut Seen,
) -> Result<(), String> {
    let old = calls
        .verdicts(reading, table, assignment)
        .map_err(|answer| format!("{answer:?} before translation"))?;
    seen.assignments += 1;
    for &verdict in &old {
        seen.verdicts[usize::from(verdict)] += 1;
    }
    let wanted: Vec<u8> = old.iter().map(|&verdict| u8::from(verdict == 1)).collect();
    for choice in CHOICES {
        let new = calls
            .verdicts(choice, out, assignment)
            .map_err(|answer| format!("{answer:?} after translation, under {choice}"))?;
        ensure!(
            new == wanted,
            "{old:?} under {reading}, but {new:?} after translation, under {choice},"
        );
    }
    Ok(())
}

fn note_kinds(table: &Table, seen: &mut Seen) {
    let mut reached = vec![false; table.nodes.len()];
    for &node in &table.constraints {
        reached[node as usize] = true;
    }
    for (number, node) in table.nodes.iter().enumerate().rev() {
        if reached[number] {
            seen.kinds[usize::from(node.kind)] = true;
            for operand in node.operands() {
                reached[operand as usize] = true;
            }
        }
    }
}

/// Compares random tables with their translations under every reading.
fn compare(calls: &dyn Calls, seed: u64, plan: &Plan, count: u64) -> Seen {
    let mut seen = Seen::default();
    for_random_tables(calls, seed, plan, count, &mut |table| {
        CHOICES
            .iter()
            .try_for_each(|&choice| compared(calls, choice, choice, table, &mut seen))
    });
    seen
}

/// Says that enough was seen: every kind, and every verdict often.
fn assert_enough(seen: &Seen, count: u64) {
    assert!(seen.tables > 2 * count, "{} tables", seen.tables);
    let often = seen.assignments / 20;
    for (verdict, &times) in seen.verdicts.iter().enumerate() {
        assert!(times > often, "verdict {verdict} {times} times");
    }
    for kind in crate::kinds::KINDS {
        let number = kind.number;
        assert!(seen.kinds[usize::from(number)], "kind {number} is unseen");
    }
}

fn small_tables_keep_their_meaning(calls: &dyn Calls) {
    let count = rounds(20_000);
    let seen = compare(calls, 31, &Plan::SMALL, count);
    assert_enough(&seen, count);
}

fn middle_tables_keep_their_meaning(calls: &dyn Calls) {
    let count = rounds(6_000);
    let seen = compare(calls, 32, &Plan::MIDDLE, count);
    assert_enough(&seen, count);
}

fn tables_near_the_limits_keep_their_meaning(calls: &dyn Calls) {
    let plan = Plan {
        wild: 6,
        ..Plan::SMALL
    };
    let count = rounds(10_000);
    let seen = compare(calls, 33, &plan, count);
    assert!(seen.tables > count / 2, "{} tables", seen.tables);
}

fn worked_examples_keep_their_meaning(calls: &dyn Calls) {
    let mut seen = Seen::default();
    let tables = [
        trials::p1(),
        trials::p2(),
        trials::p3(),
        trials::p4(),
        trials::p5(),
        trials::p6(),
        trials::p7(),
        trials::p8(),
    ];
    for table in &tables {
        for choice in CHOICES {
            assert_eq!(compared(calls, choice, choice, table, &mut seen), Ok(()));
        }
    }
    assert_eq!(seen.tables, 24);
}

fn a_wrong_translation_is_noticed_and_made_small(calls: &dyn Calls) {
    // A translation under one reading is wrong for another one.
    let mut random = Random::new(34);
    let wrong = [
        (STRICT, KLEENE),
        (KLEENE, RELATIONAL),
        (RELATIONAL, STRICT),
        (RELATIONAL, KLEENE),
    ];
    for (translation, reading) in wrong {
        let mut wrongly = |table: &Table| {
            let mut seen = Seen::default();
            compared(calls, translation, reading, table, &mut seen)
        };
        let faulty = (0..10_000)
            .map(|_| random::table(&mut random, &Plan::MIDDLE))
            .find(|table| wrongly(table).is_err())
            .expect("a table on which the readings differ");
        let text = smallest_failure(calls, &faulty, &mut wrongly);
        assert!(text.lines().count() <= 12, "{text}");
    }
}

fn the_readings_agree_where_they_must(calls: &dyn Calls) {
    // Theorem 1 of Frisch and Stuckey: a value that is defined under strict is
    // Kleene's, and one that is defined under Kleene is the relational one.
    let mut differ = [0u64; 2];
    for_random_tables(calls, 35, &Plan::MIDDLE, rounds(5_000), &mut |table| {
        let all: Vec<Vec<i32>> = table.assignments().collect();
        if cost::steps(table).saturating_mul(all.len() as u128) > MOST_STEPS {
            return Ok(());
        }
        let bytes = table.bytes();
        for assignment in all {
            let [strict, kleene, relational] = CHOICES.map(|choice| {
                calls
                    .verdicts(choice, &bytes, &assignment)
                    .unwrap_or_default()
            });
            for ((s, k), r) in strict.into_iter().zip(kleene).zip(relational) {
                let agree = (s == k || s == 2) && (k == r || k == 2) && r != 2;
                ensure!(agree, "{s} {k} {r} at {assignment:?}");
                differ[0] += u64::from(s != k);
                differ[1] += u64::from(k != r);
            }
        }
        Ok(())
    });
    assert!(differ.iter().all(|&times| times > 1_000), "{differ:?}");
}

fn steps_are_those_of_the_definition(calls: &dyn Calls) {
    for_random_tables(calls, 36, &Plan::MIDDLE, rounds(5_000), &mut |table| {
        let steps = cost::steps(table);
        if steps > MOST_STEPS {
            return Ok(());
        }
        let lowest: Vec<i32> = table.variables.iter().map(|of| of.low).collect();
        let mut room = vec![0; table.constraints.len()];
        let budget = steps as u32;
        let answer = calls.evaluate(KLEENE, &table.bytes(), &lowest, budget, &mut room);
        let expected = (0, budget);
        ensure!((answer.number, answer.steps) == expected, "{answer:?}");
        Ok(())
    });
}

fn translations_can_be_translated(calls: &dyn Calls) {
    // Never refused by the check, and the meaning stays.
    let mut random = Random::new(37);
    let mut tables = 0;
    for _ in 0..rounds(3_000) {
        let table = random::table(&mut random, &Plan::SMALL);
        for choice in CHOICES {
            let once = match calls.translated(choice, &table.bytes()) {
                Ok(once) => Table::read(&once),
                Err(_) => continue,
            };
            for again in CHOICES {
                let mut seen = Seen::default();
                assert_eq!(compared(calls, again, again, &once, &mut seen), Ok(()));
                tables += seen.tables;
            }
        }
    }
    assert!(tables > 1_000, "{tables} tables");
}

fn a_guard_stays_inside_its_binder(calls: &dyn Calls) {
    // The sum over s in −1..1 of 6 div s is undefined, over 1..2 it is 9.
    for (first, last, expected) in [(-1, 1, 0), (1, 2, 1), (1, 0, 0)] {
        let table = Table::new()
            .slot(first, last)
            .node(Node::constant(6))
            .node(Node::slot(0))
            .node(Node::div(0, 1))
            .node(Node::sum(0, 2))
            .node(Node::constant(9))
            .node(Node::equal(3, 4))
            .constraint(5);
        for choice in CHOICES {
            let out = calls
                .translated(choice, &table.bytes())
                .expect("small numbers");
            assert_eq!(calls.verdicts(choice, &out, &[]), Ok(vec![expected]));
        }
    }
}
