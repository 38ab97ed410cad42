//! Nanoseconds a call for checking a network.

use super::{best, print, print_head};
use fir_tests::answer::ACCEPTED;
use fir_tests::network::call::Checker;
use fir_tests::network::{core, fast, mixture, Network, MOST_ROWS, MOST_TAPS};
use fir_tests::random::Random;
use std::hint::black_box;

#[inline(always)]
fn check(networks: &[Network], calls: usize, checker: Checker) {
    for network in networks.iter().cycle().take(calls) {
        assert_eq!(checker(black_box(network)), ACCEPTED);
    }
}

/// So many calls, which check so many networks in turn.
fn time(rows: usize, networks: usize, calls: usize) {
    let mut random = Random::new(18);
    let next = |_| mixture::network_of(&mut random, rows, MOST_TAPS);
    let networks: Vec<Network> = (0..networks).map(next).collect();
    let times = best([&mut || check(&networks, calls, core::check), &mut || {
        check(&networks, calls, fast::check)
    }]);
    print(&format!("{} in turn, a call", networks.len()), times, calls);
}

fn measure(rows: usize, turns: &[(usize, usize)]) {
    print_head(&format!("{rows} rows, {MOST_TAPS} taps"), &["fast"]);
    for (networks, calls) in turns {
        time(rows, *networks, *calls);
    }
}

pub fn run() {
    measure(MOST_ROWS, &[(1, 10)]);
    measure(1_929, &[(16, 16)]);
    measure(31, &[(1, 200), (400, 400)]);
}
