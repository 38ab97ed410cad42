//! Nanoseconds a call and a byte for writing Verilog.

use super::{best, print, print_head};
use fir_tests::answer::ACCEPTED;
use fir_tests::network::hard::sheet;
use fir_tests::network::{mixture as any, Network, MINUS, MOST_ROWS, MOST_TAPS, NONE};
use fir_tests::random::Random;
use fir_tests::verilog::call::Writer;
use fir_tests::verilog::hard::{largest, row_numbers, smallest};
use fir_tests::verilog::{core, fast, mixture, MOST_BYTES};
use std::hint::black_box;

/// What a writer leaves.
#[derive(PartialEq)]
struct Lent {
    text: Vec<u8>,
    length: usize,
}

impl Lent {
    fn new() -> Self {
        Lent {
            text: vec![0; MOST_BYTES],
            length: 0,
        }
    }

    /// So many calls, all into the same area.
    #[inline(always)]
    fn write(&mut self, network: &Network, calls: usize, writer: Writer) {
        for _ in 0..calls {
            let text = black_box(&mut self.text);
            let answer = writer(black_box(network), text, &mut self.length);
            assert_eq!(answer, ACCEPTED);
        }
    }
}

fn measure(what: &str, network: &Network, calls: usize) {
    let mut lent = [Lent::new(), Lent::new()];
    let [a, b] = &mut lent;
    let mut by_core = || a.write(network, calls, core::verilog);
    let mut by_fast = || b.write(network, calls, fast::verilog);
    let times = best([&mut by_core, &mut by_fast]);
    assert!(lent[0] == lent[1]);
    let bytes = lent[0].length;
    print_head(what, &["fast"]);
    print(&format!("a call, {bytes} bytes"), times, calls);
    print("a byte", times, calls * bytes);
}

fn with_taps(taps: &[[u32; 3]; MOST_TAPS]) -> Network {
    let mut network = smallest();
    network.taps = taps.concat();
    network.tap_count = MOST_TAPS;
    network
}

pub fn run() {
    let mut random = Random::new(20);
    measure("taps 3, -6, 45, 0", &sheet(), 200);
    measure("row 0, one tap", &smallest(), 500);
    measure("largest text", &largest(), 1);
    for rows in [10, 100, 1000, MOST_ROWS] {
        let calls = (1000 / rows).max(1);
        let network = row_numbers(rows, 16);
        measure(&format!("{rows} rows in a chain"), &network, calls);
        let network = any::network_of(&mut random, rows, 16);
        measure(&format!("{rows} rows of any kind"), &network, calls);
    }
    measure("empty taps", &with_taps(&[[NONE, 0, 0]; MOST_TAPS]), 10);
    measure("taps -2^31", &with_taps(&[[MINUS, 0, 31]; MOST_TAPS]), 10);
    let built = mixture::built_of(&mut random, MOST_TAPS);
    measure("256 taps, built", &built, 2);
}
