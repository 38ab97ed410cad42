//! The core's Verilog, and the fast version's, against the literal text; and what the text means, by a
//! reader of its own, against the coefficients and against running.

mod verilog_check;

use fir_tests::answer::{Answer, ACCEPTED};
use fir_tests::network::hard::{edges, sheet};
use fir_tests::network::{damage, literal as networks, mixture as any, Network};
use fir_tests::network::{MINUS, REVERSED, ROW_WORDS, TAP_WORDS};
use fir_tests::random::Random;
use fir_tests::running::{core, mixture as running, REGISTERS};
use fir_tests::verilog::hard::{ends_of_range, largest, row_numbers, smallest};
use fir_tests::verilog::reader::{self, Module};
use fir_tests::verilog::samples::{self, Sample};
use fir_tests::verilog::{examples, mixture, LEAST_BYTES, MOST_BYTES};
use verilog_check::{check, show, Tally};

const RANDOM_NETWORKS: usize = 4_000;
const READ_NETWORKS: usize = 600;
const DAMAGED_NETWORKS: usize = 40_000;

const EXAMPLE: &str = "\
module smoother(input signed [15:0] x, output signed [63:0] t0, output signed [63:0] t1, \
output signed [63:0] t2, output signed [63:0] t3);
wire signed [63:0] n0;
wire signed [63:0] n1;
wire signed [63:0] n2;
assign n0 = x;
assign n1 = (n0 <<< 1) + n0;
assign n2 = (n1 <<< 4) - n1;
assign t0 = n1 <<< 0;
assign t1 = -(n1 <<< 1);
assign t2 = n2 <<< 0;
assign t3 = 0;
endmodule
";

/// The text in an area that is large enough for every one.
fn text_of(network: &Network) -> String {
    check(network, MOST_BYTES, &mut Tally::default()).unwrap()
}

fn refused(network: &Network, area: usize, refusal: u32, place: u32) {
    let answer = check(network, area, &mut Tally::default()).unwrap_err();
    assert_eq!(answer, Answer { refusal, place }, "{}", show(network));
}

#[test]
fn text_of_the_example() {
    assert_eq!(text_of(&sheet()), EXAMPLE);
    assert_eq!(EXAMPLE.len(), 376);
    assert_eq!(text_of(&mixture::built(&[3, -6, 45, 0])), EXAMPLE);
    let text = text_of(&edges());
    assert!(text.contains("\nassign n4 = n1 - (n0 <<< 30);\n"));
    assert!(text.contains("\nassign t2 = -(n0 <<< 31);\nassign t3 = n0 <<< 30;\n"));
}

#[test]
fn least_text() {
    let text = text_of(&smallest());
    assert_eq!(text.len(), LEAST_BYTES);
    let lines = "wire signed [63:0] n0;\nassign n0 = x;\nassign t0 = 0;\nendmodule\n";
    let module = "module smoother(input signed [15:0] x, output signed [63:0] t0);\n";
    assert_eq!(text, [module, lines].concat());
}

#[test]
fn largest_text() {
    let network = largest();
    let text = text_of(&network);
    assert_eq!(text.len(), MOST_BYTES);
    let bytes = |start: &str| -> usize {
        let lines = text.split_inclusive('\n');
        lines
            .filter(|line| line.starts_with(start))
            .map(str::len)
            .sum()
    };
    let parts = ["module", "wire", "assign n", "assign t", "endmodule"].map(bytes);
    assert_eq!(parts, [6842, 105_386, 156_393, 7826, 10]);
    refused(&network, MOST_BYTES - 1, 13, 0);
    refused(&network, 0, 13, 0);
    check(&network, MOST_BYTES + 1, &mut Tally::default()).unwrap();
    assert!(products(&text, &[i32::MIN; 256], &mut Random::new(50)));
}

/// Each check before the next, with all the later ones broken as well.
#[test]
fn order_of_refusals() {
    let mut network = sheet();
    refused(&network, 375, 13, 0);
    network.taps[TAP_WORDS] = REVERSED;
    refused(&network, 0, 11, 1);
    network.rows[2 * ROW_WORDS + 4] = 44;
    refused(&network, 0, 10, 2);
    network.row_count = 5000;
    refused(&network, 0, 10, 0);
    network.rows.pop();
    refused(&network, 0, 3, 0);
    network.tap_count = 257;
    refused(&network, 0, 2, 0);
    network.tap_count = 0;
    refused(&network, 0, 1, 0);
}

/// Every row number up to 4 digits, with as many taps as can be now and then.
#[test]
fn every_count_of_digits() {
    let mut tally = Tally::default();
    for rows in [1, 2, 9, 10, 11, 99, 100, 101, 999, 1000, 1001, 4095, 4096] {
        for taps in [1, 9, 10, 11, 99, 100, 101, 255, 256] {
            let network = row_numbers(rows, taps);
            let text = check(&network, MOST_BYTES, &mut tally).unwrap();
            check(&network, text.len(), &mut tally).unwrap();
            check(&network, text.len() - 1, &mut tally).unwrap_err();
        }
    }
    assert_eq!((tally.just, tally.past), (13 * 9, 13 * 9));
}

/// Areas of every length up to a little past the text's; of large texts, those near its end.
#[test]
fn every_area() {
    let mut random = Random::new(51);
    let mut tally = Tally::default();
    let mut networks = vec![smallest(), sheet(), edges(), ends_of_range()];
    networks.extend((0..40).map(|_| mixture::network(&mut random)));
    for network in &networks {
        let length = text_of(network).len();
        let first = if length < 2000 { 0 } else { length - 40 };
        for area in (first..length + 20).chain([MOST_BYTES]) {
            let fits = check(network, area, &mut tally).is_ok();
            assert_eq!(fits, area >= length);
        }
    }
    println!("accepted {}, refused {:?}", tally.accepted, tally.refusals);
    assert_eq!((tally.just, tally.past), (networks.len(), networks.len()));
    assert!(tally.refusals.refused[13] > 5000);
}

/// Every network has a text that fits the largest area, and words past its counts do not matter.
#[test]
fn random_networks() {
    let mut random = Random::new(52);
    let mut tally = Tally::default();
    let [mut fullest, mut empty, mut reversed] = [0; 3];
    for _ in 0..RANDOM_NETWORKS {
        let network = mixture::network(&mut random);
        let text = check(&network, MOST_BYTES, &mut tally).unwrap();
        let other = mixture::with_other_words(&mut random, &network);
        let area = text.len() + random.pick(&[0, 0, 1, 7]);
        assert_eq!(check(&other, area, &mut tally).unwrap(), text);
        fullest += (network.row_count == 4096) as usize;
        empty += !text.contains("= n") as usize;
        reversed += text.contains(" - (") as usize;
    }
    println!("full {fullest}, empty {empty}, with a reversed row {reversed}");
    assert_eq!(tally.accepted, 2 * RANDOM_NETWORKS);
    let often = RANDOM_NETWORKS / 100;
    assert!(fullest > often && empty > often && reversed > often && tally.just > often);
}

#[test]
fn damaged_networks() {
    let mut random = Random::new(53);
    let mut tally = Tally::default();
    let mut network = mixture::network(&mut random);
    for i in 0..DAMAGED_NETWORKS {
        if i % 8 == 0 {
            network = mixture::network(&mut random);
        }
        let mut damaged = network.clone();
        if !random.one_in(12) {
            damage::fields(&mut random, &mut damaged);
        }
        if random.one_in(6) {
            damage::counts_and_tables(&mut random, &mut damaged);
        }
        let area = random.pick(&[0, LEAST_BYTES - 1, 300, 3000, 40_000]);
        let _ = check(&damaged, area, &mut tally);
    }
    println!("accepted {}, refused {:?}", tally.accepted, tally.refusals);
    let often = DAMAGED_NETWORKS / 200;
    assert!(tally.accepted > often);
    assert!([1, 2, 3, 10, 11, 13].map(|n| tally.refusals.refused[n] > often) == [true; 6]);
    assert!(tally.refusals.places[10].len() > 500 && tally.refusals.places[11].len() > 200);
    let all = "1-3 1-10 1-13 2-3 2-10 2-11 2-13 3-10 3-11 3-13 10-11 10-13 11-13";
    tally.refusals.assert_pairs(all, DAMAGED_NETWORKS / 1000);
}

/// Every pair of counts with every pair of tables, over rules that are kept and broken.
#[test]
fn counts_and_tables() {
    let mut tally = Tally::default();
    let mut random = Random::new(54);
    let whole = any::network_of(&mut random, 4096, 256);
    let mut broken = whole.clone();
    broken.rows[3] = MINUS;
    broken.taps[0] = REVERSED;
    for network in [whole, broken] {
        for (row_count, row_words) in pairs(&damage::ROW_COUNTS, &damage::ROW_TABLES) {
            for (tap_count, tap_words) in pairs(&damage::TAP_COUNTS, &damage::TAP_TABLES) {
                let network = Network {
                    rows: network.rows[..row_words].to_vec(),
                    row_count,
                    taps: network.taps[..tap_words].to_vec(),
                    tap_count,
                };
                let area = random.pick(&[0, 500]);
                let _ = check(&network, area, &mut tally);
            }
        }
    }
    println!("accepted {}, refused {:?}", tally.accepted, tally.refusals);
    assert!(tally.refusals.refused[13] > 0 && tally.refusals.refused[3] > 1000);
    tally.refusals.assert_pairs(
        "1-3 1-10 1-13 2-3 2-10 2-11 2-13 3-10 3-11 3-13 10-11 10-13",
        5,
    );
}

fn pairs(counts: &[usize], tables: &[usize]) -> Vec<(usize, usize)> {
    let with_tables = |count: usize| tables.iter().map(move |table| (count, *table));
    counts.iter().copied().flat_map(with_tables).collect()
}

fn samples(random: &mut Random) -> Vec<i16> {
    let mut samples = vec![i16::MIN, i16::MAX, -1, 0];
    samples.extend((0..4).map(|_| random.bits() as i16));
    samples
}

/// The text has a meaning, and its outputs are the coefficients times the sample.
fn products(text: &str, coefficients: &[i32], random: &mut Random) -> bool {
    let module = reader::read(text.as_bytes()).unwrap();
    samples(random).into_iter().all(|x| {
        let product = |h: &i32| *h as i128 * x as i128;
        let wanted: Vec<i128> = coefficients.iter().map(product).collect();
        module.output_values(x as i64).unwrap() == wanted
    })
}

/// `smoother`, with a signed input of 16 bits and a signed output of 64 bits for each tap.
fn is_smoother(module: &Module, tap_count: usize) -> bool {
    let outputs = (0..tap_count).map(|k| (format!("t{k}"), 64, true));
    let wanted: Vec<_> = [("x".to_string(), 16, true)]
        .into_iter()
        .chain(outputs)
        .collect();
    let ports = module.nets[..1 + module.outputs].iter();
    let ports: Vec<_> = ports
        .map(|net| (net.name.clone(), net.width, net.signed))
        .collect();
    module.name == "smoother" && ports == wanted
}

/// One sample from any registers: the output is r0 + t0, and r(k) becomes r(k+1) + t(k+1).
fn as_running_does(module: &Module, network: &Network, random: &mut Random) {
    let before = running::content(random);
    let samples = samples(random);
    let x = random.pick(&samples);
    let mut registers = before.clone();
    let mut output = [0];
    let answer = core::run(network, &[x], &mut registers, &mut output);
    assert_eq!(answer, ACCEPTED);
    let values = module.values(x as i64).unwrap();
    let tap = |k: usize| {
        if k < module.outputs {
            values[1 + k].pattern
        } else {
            0
        }
    };
    let register = |k: usize| before.get(k).copied().unwrap_or(0);
    let sum = |k: usize| register(k).wrapping_add(tap(k));
    assert_eq!(output[0] as u64, sum(0));
    let wanted: Vec<u64> = (1..=REGISTERS).map(sum).collect();
    assert_eq!(registers, wanted);
}

#[test]
fn the_text_multiplies_as_running_does() {
    let mut random = Random::new(55);
    for _ in 0..READ_NETWORKS {
        let network = mixture::network(&mut random);
        let coefficients = networks::coefficients(&network, false).unwrap();
        let text = text_of(&network);
        assert!(products(&text, &coefficients, &mut random), "{text}");
        let module = reader::read(text.as_bytes()).unwrap();
        assert!(is_smoother(&module, network.tap_count));
        as_running_does(&module, &network, &mut random);
    }
}

/// A text with one character changed has another meaning, or none.
#[test]
fn altered_texts() {
    let random = &mut Random::new(56);
    for (network, fewest) in [(sheet(), 25), (ends_of_range(), 20)] {
        let coefficients = networks::coefficients(&network, false).unwrap();
        let text = text_of(&network);
        let assigns = text.find("assign n1").unwrap()..text.find("assign t1").unwrap();
        let mut altered = 0;
        for at in assigns.filter(|at| b"+-0123456789".contains(&text.as_bytes()[*at])) {
            for other in "+-0123456789<(x"
                .chars()
                .filter(|c| !text[at..].starts_with(*c))
            {
                let changed = format!("{}{other}{}", &text[..at], &text[at + 1..]);
                let same = reader::read(changed.as_bytes()).is_some_and(|module| {
                    module.values(0).is_some() && products(&changed, &coefficients, random)
                });
                assert!(!same, "{changed}");
                altered += 1;
            }
        }
        assert!(altered > fewest);
    }
}

#[test]
fn rules_at_work() {
    for example in examples::rules() {
        let module = reader::read(example.text.as_bytes());
        let module = module.unwrap_or_else(|| panic!("{}", example.text));
        let values = module.output_values(example.x as i64).unwrap();
        assert_eq!(values, [example.value], "{}", example.text);
    }
}

/// The reader has the values that are proved of the definition, on every net.
#[test]
fn proved_samples() {
    let samples = samples::samples();
    assert_eq!(samples.len(), 31);
    for Sample { name, text, values } in samples {
        let (x, patterns) = values.unzip();
        let module = reader::read(text.as_bytes());
        let values = module.and_then(|module| module.values(x.unwrap_or(0) as i64));
        let read = values.map(|values| values.iter().map(|value| value.pattern).collect());
        assert_eq!(read, patterns, "{name}");
    }
}

#[test]
fn without_meaning() {
    for (what, text) in examples::without_meaning() {
        let module = reader::read(text.as_bytes());
        let values = module.and_then(|module| module.values(1));
        assert!(values.is_none(), "{what}: {text}");
    }
}
