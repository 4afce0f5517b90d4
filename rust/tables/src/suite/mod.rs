//! Trials of the three calls, for any implementation of them.
//!
//! Each file has a list of trials, and [`suite_of!`](crate::suite_of) makes one
//! test of each list. A trial panics where it fails.

use crate::calls::Calls;
use crate::random::{self, Plan};
use crate::shrink::shrink;
use crate::{pretty, Random, Table};

/// A trial and its name.
pub type Trial = (&'static str, fn(&dyn Calls));

/// A list of trials, from their functions.
macro_rules! trials {
    ($($name:ident),+ $(,)?) => {
        &[$((stringify!($name), $name)),+]
    };
}

/// Says why a property fails, unless a condition holds.
macro_rules! ensure {
    ($condition:expr, $($text:tt)+) => {
        if !$condition {
            return Err(format!($($text)+));
        }
    };
}

pub mod buffers;
pub mod limits;
pub mod refusals;
pub mod three_values;
pub mod translation;
pub mod worked_examples;
pub mod writing;

/// Makes a test of each list of trials, for one implementation of the calls.
#[macro_export]
macro_rules! suite_of {
    ($calls:expr) => {
        $crate::suite_of!($calls, buffers limits refusals three_values translation worked_examples writing);
    };
    ($calls:expr, $($list:ident)+) => {
        $(
            #[test]
            fn $list() {
                $crate::suite::run($crate::suite::$list::TRIALS, &$calls);
            }
        )+
    };
}

/// Runs some trials. The name of each is printed before it starts.
pub fn run(trials: &[Trial], calls: &dyn Calls) {
    for (name, trial) in trials {
        println!("{name}");
        trial(calls);
    }
}

/// A number of rounds, twenty times as many where BARFIGOL_LONG is 1.
pub fn rounds(usual: u64) -> u64 {
    let long = std::env::var("BARFIGOL_LONG").map_or(false, |value| value == "1");
    if long {
        usual * 20
    } else {
        usual
    }
}

/// The bytes of stack that suffice for every table, as the pages promise.
const PROMISED_STACK: usize = 2_000_000;

/// Runs a trial of deep tables on the stack that the pages promise to suffice.
pub fn on_a_usual_stack(trial: &(dyn Fn() + Sync)) {
    std::thread::scope(|scope| {
        let thread = std::thread::Builder::new().stack_size(PROMISED_STACK);
        let handle = thread.spawn_scoped(scope, trial).expect("a thread");
        handle.join().expect("the trial passes");
    });
}

/// Tries a property on random sound tables. A failure prints the smallest
/// table that was found.
fn for_random_tables(
    calls: &dyn Calls,
    seed: u64,
    plan: &Plan,
    count: u64,
    property: &mut dyn FnMut(&Table) -> Result<(), String>,
) {
    let mut random = Random::new(seed);
    for _ in 0..count {
        let table = random::table(&mut random, plan);
        if property(&table).is_err() {
            panic!("{}", smallest_failure(calls, &table, property));
        }
    }
}

/// Makes a table on which a property fails small, and tells why it fails.
fn smallest_failure(
    calls: &dyn Calls,
    table: &Table,
    property: &mut dyn FnMut(&Table) -> Result<(), String>,
) -> String {
    let small = shrink(table, &mut |table| {
        calls.checked(&table.bytes()) == (0, 0) && property(table).is_err()
    });
    let why = property(&small).err().unwrap_or_default();
    format!("{why}\n{}", pretty(&small.bytes()))
}
