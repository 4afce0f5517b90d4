//! The library beside the independent implementation: the same calls, the same
//! answers and the same bytes. A failure prints the smallest table.
//! BARFIGOL_LONG=1 tries twenty times as many.

use barfigol::{Choice, Evaluation, Refusal, Totals, Verdict};
use barfigol_tables::calls::{Answer, Calls, CHOICES, MOST_BYTES};
use barfigol_tables::cases::{Call, Case, Mix, Outcome};
use barfigol_tables::random::{self, Plan};
use barfigol_tables::suite::{on_a_usual_stack, rounds};
use barfigol_tables::{calls_of, cost, damage, limits, pretty, trials, Random, Table};

calls_of!(Library = barfigol::raw);
calls_of!(Peer = barfigol_peer);

/// Room behind what a call needs.
const SPARE: usize = 5;

/// How often each number came up, by call.
#[derive(Default)]
struct Seen {
    check: [u64; 12],
    translate: [u64; 12],
    evaluate: [u64; 12],
}

impl Seen {
    fn note(&mut self, call: &Call, number: u32) {
        let counts = match call {
            Call::Check => &mut self.check,
            Call::Translate { .. } => &mut self.translate,
            Call::Evaluate { .. } => &mut self.evaluate,
        };
        counts[number as usize] += 1;
    }

    /// Says that every number a call can give came up this often.
    fn assert_each(&self, least: u64) {
        let possible = [
            (&self.check[..7], "check"),
            (&self.translate[..10], "translate"),
            (&self.evaluate[..], "evaluate"),
        ];
        for (counts, call) in possible {
            assert!(counts.iter().all(|&n| n >= least), "{call}: {counts:?}");
        }
    }
}

/// What differs between the library and the peer, or between the library's
/// safe calls and its plain ones.
fn difference(case: &Case) -> Result<(), String> {
    let fill = case.table.len() as u8 ^ 0x5a;
    case.compared(&Peer, &Library, fill)?;
    let plain = case.run(&Library, fill);
    if safe_answer(case, &plain) {
        Ok(())
    } else {
        Err(format!("the safe call differs from {:?}", plain.answer))
    }
}

/// What a safe call gives where the plain one gave an answer.
fn expected<T>(answer: Answer, done: T) -> Result<T, Refusal> {
    match answer.number {
        0 => Ok(done),
        number => Err(Refusal::new(number, answer.record).expect("a refusal")),
    }
}

/// Whether the safe calls give what the plain one gave, and leave its bytes.
fn safe_answer(case: &Case, plain: &Outcome) -> bool {
    let (table, answer) = (&case.table, plain.answer);
    let written = answer.length as usize;
    let mut lent = plain.lent.clone();
    let same = match &case.call {
        Call::Check => barfigol::check(table) == expected(answer, ()),
        Call::Translate { choice, .. } => {
            let found = barfigol::translate_into(Choice(*choice), table, &mut lent);
            let made = barfigol::translate(Choice(*choice), table);
            found == expected(answer, written)
                && (is_for_room(case, answer)
                    || made == expected(answer, plain.lent[..written].to_vec()))
        }
        Call::Evaluate {
            choice,
            assignment,
            budget,
            ..
        } => {
            let choice = Choice(*choice);
            let found = barfigol::evaluate_into(choice, table, assignment, *budget, &mut lent);
            let made = barfigol::evaluate(choice, table, assignment, *budget);
            found == expected(answer, totals(answer))
                && (is_for_room(case, answer) || made == expected(answer, evaluation(plain)))
        }
    };
    same && lent == plain.lent
}

/// Whether the lent buffer may have been too short, so that a call which makes
/// its own need not be refused.
fn is_for_room(case: &Case, answer: Answer) -> bool {
    answer.number == 9 && case.room() < MOST_BYTES
}

fn totals(answer: Answer) -> Totals {
    Totals {
        written: answer.length as usize,
        steps: answer.steps,
        all_true: answer.all_true,
    }
}

fn evaluation(plain: &Outcome) -> Evaluation {
    let written = &plain.lent[..plain.answer.length as usize];
    let verdict = |&byte: &u8| Verdict::ALL[usize::from(byte)];
    Evaluation {
        verdicts: written.iter().map(verdict).collect(),
        steps: plain.answer.steps,
        all_true: plain.answer.all_true,
    }
}

/// Says that a case has no difference, or fails with the smallest table that
/// has one.
fn assert_same(case: &Case, seen: &mut Seen) {
    if difference(case).is_ok() {
        seen.note(&case.call, case.run(&Peer, 0).answer.number);
        return;
    }
    let small = case.smallest(&Peer, &|case| difference(case).is_err());
    let why = difference(&small).err().unwrap_or_default();
    panic!("{why}\nin {:?} of\n{}", small.call, pretty(&small.table));
}

/// Compares random cases of one mix.
fn assert_same_at_random(seed: u64, mix: &Mix, count: u64) -> Seen {
    let mut seen = Seen::default();
    let mut random = Random::new(seed);
    for _ in 0..count {
        assert_same(&Case::random(&mut random, mix, &Peer), &mut seen);
    }
    seen
}

/// The three calls of a table under every choice, with room and a budget that
/// suffice unless the table is too costly.
fn calls_of_table(table: &Table, bytes: &[u8], most_steps: u128) -> Vec<Case> {
    let steps = match Peer.check(bytes).number {
        0 => cost::steps(table),
        _ => 0,
    };
    let budget = if steps > most_steps { 1_000 } else { u32::MAX };
    let assignment: Vec<i32> = table.variables.iter().map(|of| of.low).collect();
    let mut calls = vec![Call::Check];
    for choice in CHOICES {
        calls.push(Call::Translate {
            choice,
            room: MOST_BYTES + SPARE,
        });
        calls.push(Call::Evaluate {
            choice,
            assignment: assignment.clone(),
            budget,
            room: table.constraints.len() + SPARE,
        });
    }
    let case = |call: Call| Case {
        table: bytes.to_vec(),
        call,
    };
    calls.into_iter().map(case).collect()
}

#[test]
fn small_tables() {
    let mix = Mix {
        plan: Plan::SMALL,
        most_bytes: usize::MAX,
    };
    let count = rounds(300_000);
    assert_same_at_random(51, &mix, count).assert_each(count / 2_000);
}

#[test]
fn middle_tables() {
    let mix = Mix {
        plan: Plan::MIDDLE,
        most_bytes: usize::MAX,
    };
    assert_same_at_random(52, &mix, rounds(80_000));
}

#[test]
fn large_tables() {
    let mix = Mix {
        plan: Plan {
            variables: 60,
            slots: 16,
            arrays: 20,
            elements: 40,
            nodes: 500,
            constraints: 40,
            ..Plan::MIDDLE
        },
        most_bytes: usize::MAX,
    };
    assert_same_at_random(53, &mix, rounds(2_000));
}

#[test]
fn damaged_tables() {
    let mut random = Random::new(54);
    let mut seen = Seen::default();
    let count = rounds(2_000);
    for number in 1..=6 {
        let mut left = count;
        while left > 0 {
            let table = random::table(&mut random, &Plan::MIDDLE);
            if let Some(faulty) = damage::with_fault(&mut random, &table, number) {
                for case in calls_of_table(&table, &faulty.bytes, 0) {
                    assert_same(&case, &mut seen);
                }
                left -= 1;
            }
        }
    }
    assert!(seen.check[1..=6].iter().all(|&times| times == count));
}

#[test]
fn every_byte_changed() {
    let mut seen = Seen::default();
    let table = trials::every_kind();
    let sound = table.bytes();
    for place in 0..sound.len() {
        for value in 0..=255 {
            let mut bytes = sound.clone();
            bytes[place] = value;
            let changed = Table::read(&bytes);
            let all = calls_of_table(&changed, &bytes, 10_000);
            // All calls where something is still sound, else the check alone.
            let count = if Peer.check(&bytes).number == 0 {
                all.len()
            } else {
                1
            };
            for case in &all[..count] {
                assert_same(case, &mut seen);
            }
        }
    }
    // No change of a byte changes the length.
    let often = |number: usize| seen.check[number] > 100;
    assert!([0, 2, 3, 4, 5, 6].into_iter().all(often));
}

#[test]
fn tables_at_the_limits() {
    on_a_usual_stack(&|| {
        let mut seen = Seen::default();
        let mut tables = limits::both_sides();
        tables.push(trials::every_kind());
        tables.extend(trials::ALL.iter().map(|trial| trial()));
        for table in tables {
            for case in calls_of_table(&table, &table.bytes(), 3_000_000) {
                assert_same(&case, &mut seen);
            }
        }
    });
}
