//! Nanoseconds a call for building, set by set, so that a set that is slow for its size is seen.

use super::building::Lent;
use super::{best_of, calls};
use fir_tests::building::sets::{families, Family, Set};
use fir_tests::building::{core, fast};

pub const REPETITIONS: usize = 120;

/// The core's time over the fast version's.
fn measure(set: &Set) -> f64 {
    let mut lent = [Lent::new(), Lent::new()];
    let [a, b] = &mut lent;
    let calls = calls(&mut || b.build(&set.coefficients, 1, fast::build));
    let mut by_core = || a.build(&set.coefficients, calls, core::build);
    let mut by_fast = || b.build(&set.coefficients, calls, fast::build);
    let times = best_of(REPETITIONS, [&mut by_core, &mut by_fast]);
    assert!(lent[0] == lent[1], "{}", set.what);
    let [by_core, by_fast] = times.map(|time| time / calls as f64);
    let (rows, ratio) = (lent[0].row_count, by_core / by_fast);
    println!(
        "  {:<34}{rows:>6}{by_core:>12.1}{by_fast:>12.1}{ratio:>12.2}",
        set.what
    );
    ratio
}

fn measure_family(family: &Family) -> f64 {
    println!(
        "\n{:<36}{:>6}{:>12}{:>12}{:>12}",
        family.what, "rows", "core", "fast", "core/fast"
    );
    let worst = family.sets.iter().map(measure).fold(0.0, f64::max);
    println!("  {:<64}{worst:>12.2}", "worst");
    worst
}

pub fn run() {
    let worst = families().iter().map(measure_family).fold(0.0, f64::max);
    println!("\n{:<66}{worst:>12.2}", "worst of all families");
}
