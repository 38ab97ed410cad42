//! Nanoseconds a sample, and a sample and tap, for running beside a plain loop and a fast one.

use super::{best_of, print, print_head};
use fir_tests::answer::ACCEPTED;
use fir_tests::network::{mixture, Network};
use fir_tests::random::Random;
use fir_tests::running::call::Runner;
use fir_tests::running::{core, fast, plain, REGISTERS};
use std::hint::black_box;

pub const REPETITIONS: usize = 20;
const SAMPLES: usize = 1_000_000;
const SAMPLES_OF_A_CALL: usize = 20_000;
/// Samples that come one a call.
const SINGLE_SAMPLES: usize = 2_000;
const ROWS: usize = 31;

/// The registers before a call, and what the call leaves.
#[derive(PartialEq)]
struct Lent {
    before: [u64; REGISTERS],
    registers: [u64; REGISTERS],
    outputs: Vec<i64>,
}

impl Lent {
    fn new() -> Self {
        Lent {
            before: [0; REGISTERS],
            registers: [0; REGISTERS],
            outputs: vec![0; SAMPLES_OF_A_CALL],
        }
    }

    /// The calls that come next, so many samples each, as often as they are timed.
    #[inline(always)]
    fn calls(&mut self, network: &Network, samples: &[i16], of_a_call: usize, runner: Runner) {
        self.registers = self.before;
        let outputs = self.outputs.chunks_mut(of_a_call);
        for (samples, outputs) in samples.chunks(of_a_call).zip(outputs) {
            let (registers, outputs) = (black_box(&mut self.registers), black_box(outputs));
            let answer = runner(black_box(network), black_box(samples), registers, outputs);
            assert_eq!(answer, ACCEPTED);
        }
    }

    fn move_on(&mut self) {
        self.before = self.registers;
    }
}

/// The best times of all samples, those that are timed together added up.
fn times(network: &Network, samples: &[i16], of_a_call: usize) -> [f64; 3] {
    let mut lent = [(); 3].map(|_| Lent::new());
    let mut times = [0.0; 3];
    for samples in samples.chunks(SAMPLES_OF_A_CALL) {
        let [a, b, c] = &mut lent;
        let mut by_core = || a.calls(network, samples, of_a_call, core::run);
        let mut by_plain = || b.calls(network, samples, of_a_call, plain::run);
        let mut by_fast = || c.calls(network, samples, of_a_call, fast::run);
        let best = best_of(REPETITIONS, [&mut by_core, &mut by_plain, &mut by_fast]);
        times = [0, 1, 2].map(|which| times[which] + best[which]);
        assert!(lent[0] == lent[1] && lent[1] == lent[2]);
        lent.iter_mut().for_each(Lent::move_on);
    }
    times
}

fn measure(taps: usize) {
    let mut random = Random::new(19);
    let network = mixture::network_of(&mut random, ROWS, taps);
    let samples: Vec<i16> = (0..SAMPLES).map(|_| random.bits() as i16).collect();
    let of_many = times(&network, &samples, SAMPLES_OF_A_CALL);
    let of_one = times(&network, &samples[..SINGLE_SAMPLES], 1);
    print_head(&format!("{taps} taps"), &["plain", "fast"]);
    print("a sample", of_many, SAMPLES);
    print("a sample and tap", of_many, SAMPLES * taps);
    print("a call of one sample", of_one, SINGLE_SAMPLES);
}

pub fn run() {
    println!("{SAMPLES} random samples in calls of {SAMPLES_OF_A_CALL}, {ROWS} rows");
    measure(64);
    measure(REGISTERS);
}
