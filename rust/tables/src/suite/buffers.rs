//! Lent buffers and the order of refusals: what is written, what stays.

use super::{for_random_tables, rounds, Trial};
use crate::calls::{refused, Answer, Calls, CHOICES, MOST_BYTES};
use crate::random::Plan;
use crate::{cost, trials, Node, Table};

/// All trials of this file.
pub const TRIALS: &[Trial] = trials![
    verdicts_are_written_from_the_start,
    no_constraints,
    whether_all_are_true,
    order_of_evaluation_refusals,
    assignments,
    order_of_translation_refusals,
    translations_need_exactly_their_length,
    random_rooms,
    random_budgets,
];

/// A byte that no verdict and hardly a record has.
const FILL: u8 = 0xa5;

fn verdicts_are_written_from_the_start(calls: &dyn Calls) {
    let table = trials::p4().constraint(3).constraint(4).bytes();
    for (room, expected) in [(3, 0), (4, 0), (100, 0), (2, 9), (0, 9)] {
        let mut verdicts = vec![FILL; room];
        let answer = calls.evaluate(2, &table, &[1], 100, &mut verdicts);
        assert_eq!(answer.number, expected);
        if expected == 0 {
            assert_eq!((answer.length, answer.steps), (3, 17));
            assert_eq!(verdicts[..3], [0, 1, 0]);
            assert!(verdicts[3..].iter().all(|&byte| byte == FILL));
        } else {
            assert_eq!(answer, refused(9, 0));
            assert!(verdicts.iter().all(|&byte| byte == FILL));
        }
    }
}

fn no_constraints(calls: &dyn Calls) {
    let table = Table::new().node(Node::constant(i32::MAX)).bytes();
    for choice in CHOICES {
        let answer = calls.evaluate(choice, &table, &[], 0, &mut []);
        let expected = Answer {
            all_true: true,
            ..Answer::default()
        };
        assert_eq!(answer, expected);
        let mut room = [FILL; 2];
        assert_eq!(calls.evaluate(choice, &table, &[], 0, &mut room), expected);
        assert_eq!(room, [FILL; 2]);
    }
}

fn whether_all_are_true(calls: &dyn Calls) {
    // One constraint true, one undefined.
    let table = trials::p4().node(Node::truth(1)).constraint(5).bytes();
    let expected = [[2, 1], [2, 1], [1, 1]];
    for (choice, expected) in CHOICES.into_iter().zip(expected) {
        let mut verdicts = [FILL; 2];
        let answer = calls.evaluate(choice, &table, &[0], 7, &mut verdicts);
        assert_eq!(verdicts, expected);
        assert_eq!(answer.all_true, expected == [1, 1]);
    }
}

/// Two variables and a constraint that meets 2,000,000,001.
fn beyond() -> Table {
    Table::new()
        .variable(0, 1)
        .variable(5, 6)
        .node(Node::constant(2_000_000_001))
        .node(Node::equal(0, 0))
        .constraint(1)
}

fn order_of_evaluation_refusals(calls: &dyn Calls) {
    let faulty = [0; 12];
    let table = beyond().bytes();
    let sound = [0, 5];
    // Choice, table, assignment, budget, room, number, record: the faults go
    // away one after the other.
    type Call<'a> = (u32, &'a [u8], &'a [i32], u32, usize, (u32, u32));
    let expected: [Call<'_>; 11] = [
        (0, &faulty[1..], &[], 0, 0, (7, 0)),
        (4, &faulty, &[], 0, 0, (7, 0)),
        (259, &faulty, &[], 0, 0, (7, 0)),
        (u32::MAX, &table, &sound, 9, 1, (7, 0)),
        (1, &faulty[1..], &[], 0, 0, (1, 0)),
        (1, &faulty, &[], 0, 0, (2, 0)),
        (1, &table, &[7], 0, 0, (10, 0)),
        (1, &table, &[0, 7], 0, 0, (10, 2)),
        (1, &table, &sound, 0, 0, (9, 0)),
        (1, &table, &sound, 2, 1, (11, 0)),
        (1, &table, &sound, 3, 1, (8, 0)),
    ];
    for (choice, table, assignment, budget, room, (number, record)) in expected {
        let mut verdicts = vec![FILL; room];
        let answer = calls.evaluate(choice, table, assignment, budget, &mut verdicts);
        assert_eq!(answer, refused(number, record));
        assert!(verdicts.iter().all(|&byte| byte == FILL));
    }
}

fn assignments(calls: &dyn Calls) {
    let table = beyond().bytes();
    let expected: [(&[i32], u32); 9] = [
        (&[], 0),
        (&[0], 0),
        (&[9], 0),
        (&[0, 5, 0], 0),
        (&[2, 4], 1),
        (&[-1, 5], 1),
        (&[1, 4], 2),
        (&[0, 7], 2),
        (&[i32::MIN, i32::MAX], 1),
    ];
    for (assignment, record) in expected {
        let answer = calls.evaluate(3, &table, assignment, 9, &mut [FILL]);
        assert_eq!(answer, refused(10, record), "{assignment:?}");
    }
    let bools = Table::new().bool_variable().bytes();
    for (value, number) in [(0, 0), (1, 0), (2, 10), (-1, 10)] {
        let answer = calls.evaluate(1, &bools, &[value], 0, &mut []);
        assert_eq!(answer.number, number, "value {value}");
    }
}

fn order_of_translation_refusals(calls: &dyn Calls) {
    let faulty = [0; 12];
    let table = beyond().bytes();
    let p4 = trials::p4().bytes();
    let expected: [(u32, &[u8], (u32, u32)); 5] = [
        (0, &faulty[1..], (7, 0)),
        (259, &table, (7, 0)),
        (2, &faulty[1..], (1, 0)),
        (2, &faulty, (2, 0)),
        (2, &table, (8, 3)),
    ];
    for (choice, table, (number, record)) in expected {
        assert_eq!(
            calls.translate(choice, table, &mut []),
            refused(number, record)
        );
    }
    assert_eq!(calls.translate(2, &p4, &mut []), refused(9, 0));
}

fn translations_need_exactly_their_length(calls: &dyn Calls) {
    let table = trials::p4().bytes();
    for (choice, length) in CHOICES.into_iter().zip([276, 276, 240]) {
        let mut out = vec![FILL; length + 50];
        let answer = calls.translate(choice, &table, &mut out);
        let expected = Answer {
            length: length as u32,
            ..Answer::default()
        };
        assert_eq!(answer, expected);
        assert!(out[length..].iter().all(|&byte| byte == FILL));
        let mut exact = vec![FILL; length];
        assert_eq!(calls.translate(choice, &table, &mut exact), expected);
        assert_eq!(exact[..], out[..length]);
        let mut short = vec![FILL; length - 1];
        assert_eq!(calls.translate(choice, &table, &mut short), refused(9, 0));
        assert!(short.iter().all(|&byte| byte == FILL));
    }
}

/// A plan with some numbers near the limits.
const WILD: Plan = Plan {
    wild: 10,
    ..Plan::SMALL
};

fn random_rooms(calls: &dyn Calls) {
    for_random_tables(calls, 21, &WILD, rounds(4_000), &mut |table| {
        CHOICES
            .iter()
            .try_for_each(|&choice| translation_fits(calls, choice, &table.bytes()))
    });
}

fn random_budgets(calls: &dyn Calls) {
    for_random_tables(calls, 22, &WILD, rounds(4_000), &mut |table| {
        let lowest: Vec<i32> = table.variables.iter().map(|of| of.low).collect();
        let highest: Vec<i32> = table.variables.iter().map(|of| of.high).collect();
        for choice in CHOICES {
            evaluation_fits(calls, choice, table, &lowest)?;
            evaluation_fits(calls, choice, table, &highest)?;
        }
        Ok(())
    });
}

fn untouched(bytes: &[u8]) -> bool {
    bytes.iter().all(|&byte| byte == FILL)
}

/// A translation needs its length, and leaves what is beyond it.
fn translation_fits(calls: &dyn Calls, choice: u32, table: &[u8]) -> Result<(), String> {
    let mut out = vec![FILL; MOST_BYTES];
    let answer = calls.translate(choice, table, &mut out);
    let length = answer.length as usize;
    ensure!(untouched(&out[length..]), "{answer:?} touches the rest");
    if answer.number != 0 {
        let refusal = refused(answer.number, answer.record);
        ensure!(answer == refusal, "{answer:?}");
        return Ok(());
    }
    let mut exact = vec![0; length];
    let again = calls.translate(choice, table, &mut exact);
    ensure!(again == answer, "{again:?} in exact room");
    ensure!(exact == out[..length], "other bytes in exact room");
    let mut short = vec![FILL; length - 1];
    let again = calls.translate(choice, table, &mut short);
    ensure!(again == refused(9, 0), "{again:?} in too little room");
    ensure!(untouched(&short), "a refusal touches a byte");
    Ok(())
}

/// An evaluation takes exactly its steps and its room.
fn evaluation_fits(
    calls: &dyn Calls,
    choice: u32,
    table: &Table,
    assignment: &[i32],
) -> Result<(), String> {
    let steps = cost::steps(table);
    if steps > 20_000 {
        return Ok(());
    }
    let budget = steps as u32;
    let bytes = table.bytes();
    let count = table.constraints.len();
    let mut room = vec![FILL; count + 3];
    let answer = calls.evaluate(choice, &bytes, assignment, budget, &mut room);
    if answer.number != 0 {
        ensure!(answer == refused(8, 0), "{answer:?}");
        ensure!(untouched(&room), "a refusal touches a byte");
        return Ok(());
    }
    let (written, rest) = room.split_at(count);
    let all_true = written.iter().all(|&byte| byte == 1);
    let expected = Answer {
        steps: budget,
        length: count as u32,
        all_true,
        ..Answer::default()
    };
    ensure!(answer == expected, "{answer:?}");
    ensure!(written.iter().all(|&byte| byte <= 2), "{written:?}");
    ensure!(untouched(rest), "touches the rest");
    refused_with_less(calls, choice, &bytes, assignment, budget, count)
}

/// One step or one byte less is refused, and nothing is written.
fn refused_with_less(
    calls: &dyn Calls,
    choice: u32,
    table: &[u8],
    assignment: &[i32],
    steps: u32,
    count: usize,
) -> Result<(), String> {
    if count == 0 {
        return Ok(());
    }
    let mut room = vec![FILL; count];
    let answer = calls.evaluate(choice, table, assignment, steps - 1, &mut room);
    ensure!(answer == refused(11, 0), "{answer:?} with a step less");
    let answer = calls.evaluate(choice, table, assignment, 0, &mut room[1..]);
    ensure!(answer == refused(9, 0), "{answer:?} with a byte less");
    ensure!(untouched(&room), "a refusal touches a byte");
    Ok(())
}
