//! Times versions of the same in one run, in turns.

pub mod building;
pub mod forms;
pub mod network;
pub mod planes;
pub mod running;
pub mod sweep;
pub mod taps;
pub mod verilog;
pub mod weights;

use std::time::Instant;

/// Each repetition times every version, one after the other; the best time of each counts.
pub const REPETITIONS: usize = 400;

/// Nanoseconds that a timing of short calls should take, and its calls at most.
const TIMING: f64 = 300_000.0;
const MOST_CALLS: usize = 2000;

/// Nanoseconds that a run takes.
fn time(run: &mut dyn FnMut()) -> f64 {
    let start = Instant::now();
    run();
    start.elapsed().as_nanos() as f64
}

/// How many calls a timing should have.
fn calls(one: &mut dyn FnMut()) -> usize {
    ((TIMING / time(one)) as usize).clamp(1, MOST_CALLS)
}

/// The best time of each, all taking turns to go first.
pub fn best<const N: usize>(run: [&mut dyn FnMut(); N]) -> [f64; N] {
    best_of(REPETITIONS, run)
}

/// The same with so many repetitions.
pub fn best_of<const N: usize>(repetitions: usize, run: [&mut dyn FnMut(); N]) -> [f64; N] {
    let mut best = [f64::INFINITY; N];
    for first in 0..repetitions {
        for turn in 0..N {
            let which = (first + turn) % N;
            best[which] = best[which].min(time(run[which]));
        }
    }
    best
}

/// The names of the columns: the core, what it is compared with, and its time over theirs.
pub fn print_head(what: &str, others: &[&str]) {
    print!("\n{what:<26}{:>10}", "core");
    for other in others {
        print!("{other:>10}");
    }
    for other in others {
        print!("{:>12}", format!("core/{other}"));
    }
    println!();
}

/// The times, the core's first, each for so many of something.
pub fn print<const N: usize>(what: &str, times: [f64; N], many: usize) {
    let times = times.map(|time| time / many as f64);
    print!("  {what:<24}");
    for time in times {
        print!("{time:10.2}");
    }
    for time in &times[1..] {
        print!("{:12.2}", times[0] / time);
    }
    println!();
}
