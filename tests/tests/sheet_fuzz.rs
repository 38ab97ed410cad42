//! Random small changes of inputs and arguments, for a bounded time: FUZZ_SECONDS, else 30. The
//! program must not crash, must end, and must print the literal sheet.

mod sheet_check;

use fir_tests::random::Random;
use fir_tests::sheet::input::Input;
use fir_tests::sheet::mutation::{changed, starts};
use sheet_check::{check, Tally};
use std::env;
use std::time::{Duration, Instant};

/// Changes upon changes before the next start.
const CHAIN: usize = 12;
/// Accepted sets of more taps cost the literal version long, so they are tried now and then only.
const MANY_TAPS: usize = 40;

fn seconds() -> u64 {
    let named = env::var("FUZZ_SECONDS").ok();
    named.map_or(30, |text| text.parse().unwrap())
}

fn costs_long(input: &Input) -> bool {
    (8 * MANY_TAPS..=8 * 256).contains(&input.bytes.len())
}

#[test]
fn changed_inputs() {
    let mut random = Random::new(34);
    let mut tally = Tally::default();
    let starts = starts();
    let begun = Instant::now();
    while begun.elapsed() < Duration::from_secs(seconds()) {
        let mut input = starts[random.below(starts.len())].clone();
        for _ in 0..CHAIN {
            input = changed(&mut random, &input);
            if !costs_long(&input) || random.one_in(8) {
                check(&input, &mut tally);
            }
        }
    }
    tally.print();
    assert!(tally.accepted > 0);
    let refused = [1, 2, 4, 5, 6, 12].map(|n| tally.refused[n]);
    assert!(refused.iter().all(|count| *count > 0));
}
