//! Prints random cases and their answers, one to a line, so that another
//! implementation can be compared.
//!
//! `answers SEED COUNT` prints COUNT lines of these forms. Fields are separated
//! by single spaces, and an empty field is `-`:
//!
//! ```text
//! check HEX => number record
//! translate CHOICE HEX ROOM => number record length HEXOUT
//! evaluate CHOICE HEX v0,v1,.. BUDGET ROOM => number record steps all length VERDICTS
//! ```
//!
//! HEX is the table. ROOM is the length of the lent buffer in bytes, HEXOUT the
//! bytes written. `all` is 1 for yes and 0 for no, VERDICTS one digit to a
//! constraint.

use barfigol_tables::calls::Answer;
use barfigol_tables::cases::{Call, Case, Mix};
use barfigol_tables::random::Plan;
use barfigol_tables::{calls_of, hex, Random};
use std::io::{self, BufWriter, Write};

calls_of!(Peer = barfigol_peer);

/// Tables of a few dozen records at most.
const MIX: Mix = Mix {
    plan: Plan::SMALL,
    most_bytes: 1_000,
};

fn main() -> io::Result<()> {
    let mut arguments = std::env::args().skip(1);
    let mut number = || arguments.next().and_then(|text| text.parse::<u64>().ok());
    let (seed, count) = match (number(), number()) {
        (Some(seed), Some(count)) => (seed, count),
        _ => {
            eprintln!("usage: answers SEED COUNT");
            std::process::exit(2);
        }
    };
    let mut random = Random::new(seed);
    let mut out = BufWriter::new(io::stdout());
    for _ in 0..count {
        writeln!(out, "{}", line(&Case::random(&mut random, &MIX, &Peer)))?;
    }
    out.flush()
}

fn line(case: &Case) -> String {
    let outcome = case.run(&Peer, 0);
    let written = &outcome.lent[..outcome.answer.length as usize];
    let table = hex(&case.table);
    let Answer {
        number,
        record,
        steps,
        length,
        all_true,
    } = outcome.answer;
    match &case.call {
        Call::Check => format!("check {table} => {number} {record}"),
        Call::Translate { choice, room } => {
            let written = hex(written);
            format!("translate {choice} {table} {room} => {number} {record} {length} {written}")
        }
        Call::Evaluate {
            choice,
            assignment,
            budget,
            room,
        } => {
            let values = joined(assignment, ",");
            let (all, verdicts) = (u8::from(all_true), joined(written, ""));
            format!(
                "evaluate {choice} {table} {values} {budget} {room} \
                 => {number} {record} {steps} {all} {length} {verdicts}"
            )
        }
    }
}

/// Values one after the other, `-` for none.
fn joined<T: ToString>(values: &[T], separator: &str) -> String {
    if values.is_empty() {
        return String::from("-");
    }
    let texts: Vec<String> = values.iter().map(T::to_string).collect();
    texts.join(separator)
}
