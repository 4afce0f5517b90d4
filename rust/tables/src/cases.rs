//! Whole calls: a table with all the other arguments.

use crate::calls::{Answer, Calls, MOST_BYTES};
use crate::random::{self, Plan};
use crate::shrink::shrink;
use crate::{damage, trials, Random};
use barfigol_format::{cost, pretty, Table};

/// Tables with more steps are not walked.
const MOST_STEPS: u128 = 300_000;

/// One of the three calls, with its arguments but for the table. `room` is the
/// length of the lent buffer.
#[derive(Clone, Debug, PartialEq, Eq)]
pub enum Call {
    /// Checks the table.
    Check,
    /// Translates the table.
    Translate {
        /// The choice of a reading.
        choice: u32,
        /// The bytes lent.
        room: usize,
    },
    /// Evaluates the table.
    Evaluate {
        /// The choice of a reading.
        choice: u32,
        /// The values of the variables.
        assignment: Vec<i32>,
        /// The most steps allowed.
        budget: u32,
        /// The bytes lent.
        room: usize,
    },
}

/// A call of a table.
#[derive(Clone, Debug, PartialEq, Eq)]
pub struct Case {
    /// The table, sound or faulty.
    pub table: Vec<u8>,
    /// The call.
    pub call: Call,
}

/// What a call gives back and leaves behind.
#[derive(Clone, Debug, PartialEq, Eq)]
pub struct Outcome {
    /// The answer.
    pub answer: Answer,
    /// The lent buffer after the call.
    pub lent: Vec<u8>,
}

/// What random cases are like.
#[derive(Clone, Copy, Debug, PartialEq, Eq)]
pub struct Mix {
    /// The size of the tables.
    pub plan: Plan,
    /// Faulty tables above this length are left out.
    pub most_bytes: usize,
}

impl Case {
    /// Makes a case. The calls tell which tables are sound, and how long their
    /// translations are.
    pub fn random(random: &mut Random, mix: &Mix, calls: &dyn Calls) -> Case {
        let table = some_table(random, mix);
        let call = match random.below(5) {
            0 => Call::Check,
            1 | 2 => some_translation(random, &table, calls),
            _ => some_evaluation(random, &table, calls),
        };
        Case { table, call }
    }

    /// Makes the call, with a lent buffer that is filled beforehand.
    pub fn run(&self, calls: &dyn Calls, fill: u8) -> Outcome {
        let mut lent = filled(self.room(), fill);
        let table = &self.table;
        let answer = match &self.call {
            Call::Check => calls.check(table),
            Call::Translate { choice, .. } => calls.translate(*choice, table, &mut lent),
            Call::Evaluate {
                choice,
                assignment,
                budget,
                ..
            } => calls.evaluate(*choice, table, assignment, *budget, &mut lent),
        };
        Outcome { answer, lent }
    }

    /// The length of the lent buffer.
    pub fn room(&self) -> usize {
        match self.call {
            Call::Check => 0,
            Call::Translate { room, .. } | Call::Evaluate { room, .. } => room,
        }
    }

    /// Says what differs between two implementations, if anything does. The
    /// second is also held to what every call owes its lent buffer.
    ///
    /// # Errors
    ///
    /// What differs.
    pub fn compared(&self, known: &dyn Calls, tried: &dyn Calls, fill: u8) -> Result<(), String> {
        let unchanged = self.clone();
        let (known, tried) = (self.run(known, fill), self.run(tried, fill));
        if *self != unchanged {
            return Err(String::from("bytes lent for reading are changed"));
        }
        if tried.answer != known.answer {
            return Err(format!("{:?}\nand not {:?}", tried.answer, known.answer));
        }
        let before = filled(self.room(), fill);
        let length = tried.answer.length as usize;
        if tried.lent[length..] != before[length..] {
            return Err(String::from("bytes beyond the length are changed"));
        }
        if tried.lent != known.lent {
            return Err(format!(
                "other bytes are written:\n{}and not:\n{}",
                pretty(&tried.lent[..length]),
                pretty(&known.lent[..length])
            ));
        }
        Ok(())
    }

    /// The same call of the smallest table for which it still fails.
    pub fn smallest(&self, known: &dyn Calls, fails: &dyn Fn(&Case) -> bool) -> Case {
        let with = |table: &[u8]| Case {
            table: table.to_vec(),
            call: self.call.clone(),
        };
        let mut table = self.table.clone();
        if known.check(&table).number == 0 {
            let sound = shrink(&Table::read(&table), &mut |table| {
                let bytes = table.bytes();
                known.check(&bytes).number == 0 && fails(&with(&bytes))
            });
            table = sound.bytes();
        }
        with(&damage::shrink(&table, &mut |table| fails(&with(table))))
    }
}

/// A buffer whose neighbouring bytes differ.
fn filled(length: usize, fill: u8) -> Vec<u8> {
    (0..length)
        .map(|place| fill.wrapping_add(place as u8))
        .collect()
}

/// A table, sound or faulty.
fn some_table(random: &mut Random, mix: &Mix) -> Vec<u8> {
    let plan = Plan {
        wild: random.pick(&[0, 0, 0, 15, 35]),
        ..mix.plan
    };
    let table = match random.below(30) {
        0 => some_trial(random),
        _ => random::table(random, &plan),
    };
    let bytes = match random.below(10) {
        0 => damage::damaged(random, &table).bytes,
        1 => damage::scrambled(random, &table),
        _ => table.bytes(),
    };
    if bytes.len() > mix.most_bytes {
        return table.bytes();
    }
    bytes
}

fn some_trial(random: &mut Random) -> Table {
    let trial = random.pick(&trials::ALL);
    trial()
}

fn some_choice(random: &mut Random) -> u32 {
    if random.percent(6) {
        random.pick(&[0, 4, 7, 256, 257, 259, u32::MAX])
    } else {
        1 + random.below(3) as u32
    }
}

fn some_translation(random: &mut Random, table: &[u8], calls: &dyn Calls) -> Call {
    let choice = some_choice(random);
    let mut out = vec![0; MOST_BYTES];
    let needed = calls.translate(choice, table, &mut out).length as usize;
    let room = match random.below(12) {
        0 => needed.saturating_sub(1),
        1 => needed.saturating_sub(12),
        2 => random.below(needed + 1),
        3..=6 => needed,
        _ => needed + random.below(30),
    };
    Call::Translate { choice, room }
}

fn some_evaluation(random: &mut Random, table: &[u8], calls: &dyn Calls) -> Call {
    let choice = some_choice(random);
    let builder = Table::read(table);
    let assignment = some_assignment(random, &builder);
    let budget = if calls.check(table).number == 0 {
        some_budget(random, cost::steps(&builder))
    } else {
        random.bits() as u32
    };
    let constraints = builder.constraints.len();
    let room = match random.below(8) {
        0 => random.below(constraints + 1),
        1 | 2 => constraints,
        _ => constraints + random.below(4),
    };
    Call::Evaluate {
        choice,
        assignment,
        budget,
        room,
    }
}

/// An assignment, sometimes of the wrong length or with a value outside.
fn some_assignment(random: &mut Random, table: &Table) -> Vec<i32> {
    let values = table.variables.iter();
    let mut assignment: Vec<i32> = values
        .map(|variable| random.within(variable.low..=variable.high.max(variable.low)))
        .collect();
    if random.percent(4) {
        assignment.push(0);
    } else if random.percent(4) {
        assignment.pop();
    }
    for (value, variable) in assignment.iter_mut().zip(&table.variables) {
        if random.percent(4) {
            let below = variable.low.wrapping_sub(1);
            let above = variable.high.wrapping_add(1);
            *value = random.pick(&[below, above, i32::MIN, i32::MAX]);
        }
    }
    assignment
}

/// A budget, often near the cost, which never lets a long walk start.
fn some_budget(random: &mut Random, cost: u128) -> u32 {
    if cost > MOST_STEPS {
        let largest = u32::try_from(cost - 1).unwrap_or(u32::MAX);
        return random.pick(&[largest, largest / 2, 0]);
    }
    let cost = cost as u32;
    match random.below(8) {
        0 => cost.saturating_sub(1),
        1 => cost,
        2 => cost + 1,
        3 => random.below(cost as usize + 1) as u32,
        4 => u32::MAX,
        _ => cost + random.below(1_000) as u32,
    }
}
