//! Times the library beside the independent implementation and memcpy, and
//! prints the tables of docs/BENCHMARKS.md.
//!
//! `cargo run --release -p barfigol_bench`, in rust/. A number after `--` sets
//! the rounds.

mod inputs;
mod stack;
mod timing;

use barfigol_tables::calls_of;
use barfigol_tables::cases::{Call, Case};
use inputs::Input;
use std::time::Duration;
use timing::Times;

calls_of!(Library = barfigol::raw);
calls_of!(Peer = barfigol_peer);

/// How often each side is timed. The least time counts.
const ROUNDS: u32 = 15;

fn main() {
    let given = std::env::args().nth(1).and_then(|text| text.parse().ok());
    let rounds = given.unwrap_or(ROUNDS);
    let inputs = inputs::all(&Peer);
    for input in &inputs {
        if let Err(why) = input.case.compared(&Peer, &Library, 0) {
            eprintln!("{}: {why}", input.name);
            std::process::exit(1);
        }
    }
    println!("Least of {rounds} runs each, in turn; buffers reused, not cleared between runs.\n");
    println!("| Call | Table | Library | Peer | Library / peer | Library / memcpy |");
    println!("|---|---|---|---|---|---|");
    for input in &inputs {
        println!("{}", time_line(input, rounds));
    }
    println!("\n| Call | Table | Stack of the library | Stack of the peer |");
    println!("|---|---|---|---|");
    for input in &inputs {
        println!("{}", stack_line(input));
    }
}

fn time_line(input: &Input, rounds: u32) -> String {
    let Times {
        library,
        peer,
        memcpy,
        steps,
    } = timing::times(&input.case, &Library, &Peer, rounds);
    let beside_memcpy = match input.case.call {
        Call::Evaluate { .. } => {
            let step = library.as_secs_f64() * 1e9 / f64::from(steps.max(1));
            format!("{step:.2} ns a step")
        }
        _ => format!("{:.1}", ratio(library, memcpy)),
    };
    format!(
        "| {} | {} | {} | {} | {:.2} | {beside_memcpy} |",
        call_name(&input.case),
        input.name,
        micros(library),
        micros(peer),
        ratio(library, peer),
    )
}

fn stack_line(input: &Input) -> String {
    let used = |calls| stack::used(&mut || drop(input.case.run(calls, 0)));
    format!(
        "| {} | {} | {} | {} |",
        call_name(&input.case),
        input.name,
        kilobytes(used(&Library)),
        kilobytes(used(&Peer)),
    )
}

fn call_name(case: &Case) -> String {
    match case.call {
        Call::Check => String::from("check"),
        Call::Translate { choice, .. } => format!("translate, {}", reading(choice)),
        Call::Evaluate { choice, .. } => format!("evaluate, {}", reading(choice)),
    }
}

fn reading(choice: u32) -> &'static str {
    match choice {
        1 => "strict",
        2 => "Kleene",
        _ => "relational",
    }
}

fn ratio(one: Duration, other: Duration) -> f64 {
    one.as_secs_f64() / other.as_secs_f64()
}

fn micros(time: Duration) -> String {
    format!("{:.1} µs", time.as_secs_f64() * 1e6)
}

fn kilobytes(bytes: usize) -> String {
    format!("{:.1} kB", bytes as f64 / 1e3)
}
