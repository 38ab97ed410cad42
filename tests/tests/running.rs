//! The core's running, and that of the plain loop and the fast version, against the literal sums.

mod running_check;

use fir_tests::answer::Answer;
use fir_tests::network::hard::sheet;
use fir_tests::network::{mixture as networks, Network, MINUS, PLUS};
use fir_tests::random::Random;
use fir_tests::running::call::Call;
use fir_tests::running::{mixture, REGISTERS};
use running_check::{Registers, Tally};

const CLEARED: [u64; REGISTERS] = [0; REGISTERS];
const STREAMS: usize = 1_500;
const CALLS_OF_A_STREAM: usize = 20;
const CALLS_ON_ANY_CONTENT: usize = 10_000;

#[test]
fn figures_of_running() {
    let tally = &mut Tally::default();
    let mut registers = Registers::new(&CLEARED);
    let call = Call::new(&sheet(), &[1, 2, -32768]);
    assert_eq!(registers.call(&call, tally).unwrap(), [3, 0, -98271]);
    let none = Call::new(&sheet(), &[]);
    assert_eq!(registers.call(&none, tally).unwrap(), []);
    let next = Call::new(&sheet(), &[0, 0, 0]);
    let wanted = [90 + 6 * 32768, -45 * 32768, 0];
    assert_eq!(registers.call(&next, tally).unwrap(), wanted);
}

/// All coefficients and all samples at the ends of their ranges.
#[test]
fn largest_sums() {
    for (tap, h) in [([MINUS, 0, 31], -1i64 << 31), ([PLUS, 1, 0], (1 << 31) - 1)] {
        let rows = [[0, 0, 0, PLUS, 1], [0, 0, 31, MINUS, 0x7fff_ffff]];
        let network = Network::new(&rows, &[tap; 256]);
        for sample in [i16::MIN, i16::MAX] {
            let mut registers = Registers::new(&CLEARED);
            let call = Call::new(&network, &[sample; 600]);
            let outputs = registers.call(&call, &mut Tally::default()).unwrap();
            assert_eq!(outputs[599], 256 * h * sample as i64);
        }
    }
}

/// Every small number of samples with every small number of taps, and with the largest ones.
#[test]
fn every_length() {
    let mut random = Random::new(14);
    let mut tally = Tally::default();
    for taps in (1..=20).chain(250..=256) {
        let network = networks::network_of(&mut random, 12, taps);
        for samples in (0..=20).chain([255, 256, 257, 511, 512, 513, 1030]) {
            let samples = mixture::samples(&mut random, samples);
            let mut registers = Registers::new(&mixture::content(&mut random));
            let call = Call::new(&network, &samples);
            registers.call(&call, &mut tally).unwrap();
        }
    }
    assert_eq!(tally.accepted, 27 * 28);
}

/// One list of samples in one call, one by one, and cut in two at every place.
#[test]
fn every_cut() {
    let mut random = Random::new(15);
    for taps in [1, 2, 7, 64, 255, 256] {
        let network = networks::network_of(&mut random, 12, taps);
        let samples = mixture::samples(&mut random, 37);
        let tally = &mut Tally::default();
        let run = |parts: &[&[i16]], tally: &mut Tally| -> Vec<i64> {
            let mut registers = Registers::new(&CLEARED);
            let mut call = |part: &&[i16]| registers.call(&Call::new(&network, part), tally);
            let outputs = parts.iter().map(|part| call(part).unwrap());
            outputs.collect::<Vec<_>>().concat()
        };
        let whole = run(&[&samples], tally);
        let single: Vec<&[i16]> = samples.chunks(1).collect();
        assert_eq!(run(&single, tally), whole);
        for place in 0..=samples.len() {
            let (front, back) = samples.split_at(place);
            assert_eq!(run(&[front, back], tally), whole);
        }
    }
}

/// Calls of one network on registers cleared at the start, refused ones between.
#[test]
fn streams_from_cleared_registers() {
    let mut random = Random::new(16);
    let mut tally = Tally::default();
    for _ in 0..STREAMS {
        let network = mixture::network(&mut random);
        let mut registers = Registers::new(&CLEARED);
        for _ in 0..CALLS_OF_A_STREAM {
            let call = if random.one_in(2) {
                mixture::refused_call(&mut random, &network)
            } else {
                mixture::call(&mut random, &network)
            };
            let _ = registers.call(&call, &mut tally);
        }
    }
    println!("{tally:?}");
    let often = STREAMS * CALLS_OF_A_STREAM / 200;
    assert!(tally.accepted > 60 * often && tally.idle > often && tally.samples > 100_000);
    assert!([1, 2, 3, 10, 11].map(|n| tally.refused[n] > often) == [true; 5]);
    assert!(tally.part > often && tally.more > often);
}

/// Calls on any register content, each with another network, refused ones between.
#[test]
fn calls_on_any_content() {
    let mut random = Random::new(17);
    let mut tally = Tally::default();
    let mut registers = Registers::new(&mixture::content(&mut random));
    for _ in 0..CALLS_ON_ANY_CONTENT {
        if random.one_in(4) {
            registers = Registers::new(&mixture::content(&mut random));
        }
        let network = mixture::network(&mut random);
        let call = if random.one_in(4) {
            mixture::refused_call(&mut random, &network)
        } else {
            mixture::call(&mut random, &network)
        };
        let _ = registers.call(&call, &mut tally);
        registers.begin_again();
    }
    println!("{tally:?}");
    assert!(tally.accepted > CALLS_ON_ANY_CONTENT / 2 && tally.more > 100);
    let refused: usize = tally.refused.iter().sum();
    assert!(refused > CALLS_ON_ANY_CONTENT / 5 && tally.part > 100);
}

/// Too few registers or outputs, by one and by more, with a network that is kept or broken.
#[test]
fn short_memory() {
    let mut tally = Tally::default();
    let mut registers = Registers::new(&CLEARED);
    let short = Answer {
        refusal: 3,
        place: 0,
    };
    for sample in [7, i16::MIN] {
        let mut call = Call::new(&sheet(), &[sample; 30]);
        registers.call(&call, &mut tally).unwrap();
        for broken in [false, true] {
            call.network.rows[4] = 1 + broken as u32;
            for (lent, outputs) in [(255, 30), (256, 29), (0, 30), (256, 0), (1, 1), (290, 29)] {
                call.registers = lent;
                call.outputs = outputs;
                assert_eq!(registers.call(&call, &mut tally), Err(short));
            }
        }
    }
    assert_eq!((tally.accepted, tally.refused[3]), (2, 24));
}
