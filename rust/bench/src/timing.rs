//! Times of one case: the library, the peer and memcpy in turn.

use barfigol_tables::calls::Calls;
use barfigol_tables::cases::{Call, Case};
use std::time::{Duration, Instant};

/// A run is repeated until it takes about this long.
const RUN: Duration = Duration::from_millis(4);
/// How many calls go to one reading of the clock.
const CALLS_A_READING: u32 = 4;

/// The least time of one call, and of copying as many bytes as it reads or
/// writes, whichever is more.
pub struct Times {
    /// The library.
    pub library: Duration,
    /// The peer.
    pub peer: Duration,
    /// Copying.
    pub memcpy: Duration,
    /// The steps of an evaluation.
    pub steps: u32,
}

/// Times a case on both sides.
pub fn times(case: &Case, library: &dyn Calls, peer: &dyn Calls, rounds: u32) -> Times {
    let answer = case.run(peer, 0).answer;
    assert_eq!(answer.number, 0, "a call that is timed is not refused");
    let mut lent = vec![0; case.room()];
    let source = vec![1; case.table.len().max(answer.length as usize)];
    let mut copy = vec![0; source.len()];
    let mut least = [Duration::MAX; 3];
    for _ in 0..rounds {
        let run = [
            time_of(&mut || call(case, library, &mut lent)),
            time_of(&mut || call(case, peer, &mut lent)),
            time_of(&mut || copied(&source, &mut copy)),
        ];
        for (least, time) in least.iter_mut().zip(run) {
            *least = time.min(*least);
        }
    }
    let [library, peer, memcpy] = least;
    Times {
        library,
        peer,
        memcpy,
        steps: answer.steps,
    }
}

/// Makes the call.
fn call(case: &Case, calls: &dyn Calls, lent: &mut [u8]) {
    let table = &case.table;
    match &case.call {
        Call::Check => calls.check(table),
        Call::Translate { choice, .. } => calls.translate(*choice, table, lent),
        Call::Evaluate {
            choice,
            assignment,
            budget,
            ..
        } => calls.evaluate(*choice, table, assignment, *budget, lent),
    };
}

/// Copies, as a call that the compiler can't see through.
#[inline(never)]
fn copied(source: &[u8], copy: &mut [u8]) {
    copy.copy_from_slice(source);
}

/// The time of one call, from as many as fill a run.
fn time_of(one: &mut dyn FnMut()) -> Duration {
    let start = Instant::now();
    let mut count = 0;
    loop {
        // The clock is read once for a few calls, for copies are short.
        for _ in 0..CALLS_A_READING {
            one();
        }
        count += CALLS_A_READING;
        let time = start.elapsed();
        if time >= RUN {
            return time / count;
        }
    }
}
