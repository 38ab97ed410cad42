//! The core's Verilog through tools that others made: Icarus Verilog runs it, Verilator looks it over
//! and Yosys proves it. VERILOG_WITHOUT names those that are not there.

use fir_tests::network::hard::{edges, sheet};
use fir_tests::network::{literal, Network, NONE, ROW_WORDS, TAP_WORDS};
use fir_tests::random::Random;
use fir_tests::verilog::call::run;
use fir_tests::verilog::hard::{ends_of_range, largest, smallest, ROW_LEFT_OVER};
use fir_tests::verilog::reader::{self, Module};
use fir_tests::verilog::samples::{self, Sample};
use fir_tests::verilog::tools::icarus::{self, Inputs};
use fir_tests::verilog::tools::{goes_without, verilator, yosys};
use fir_tests::verilog::{core, examples, mixture, modules, MOST_BYTES};

const SIMULATED_NETWORKS: usize = 200;
const RANDOM_MODULES: usize = 150;
const LINTED_NETWORKS: usize = 40;
const READ_NETWORKS: usize = 40;
/// A sample that shows the width of numbers: Icarus takes more than 32 bits, as the standard allows.
const WIDER_NUMBERS: &str = "numbers_of_32_bits";

/// The core's text.
fn text_of(network: &Network) -> String {
    let outcome = run(network, MOST_BYTES, core::verilog);
    String::from_utf8(outcome.text().to_vec()).unwrap()
}

fn coefficients(network: &Network) -> Vec<i32> {
    literal::coefficients(network, false).unwrap()
}

fn module(text: &str) -> Module {
    reader::read(text.as_bytes()).unwrap()
}

/// Icarus has the products for these inputs, and so has the reader.
fn simulated(network: &Network, inputs: &[i16]) {
    let text = text_of(network);
    let module = module(&text);
    let outputs = icarus::outputs(&text, &module, &Inputs::These(inputs));
    assert_eq!(outputs.len(), inputs.len());
    for (x, outputs) in inputs.iter().zip(outputs) {
        let product = |h: &i32| *h as i128 * *x as i128;
        let products: Vec<i128> = coefficients(network).iter().map(product).collect();
        assert_eq!(outputs, products, "{x}: {text}");
        assert_eq!(module.output_values(*x as i64).unwrap(), products);
    }
}

#[test]
fn icarus_on_random_networks() {
    if goes_without(icarus::NAME) {
        return;
    }
    let mut random = Random::new(60);
    for _ in 0..SIMULATED_NETWORKS {
        let network = mixture::network(&mut random);
        let mut inputs = vec![i16::MIN, i16::MAX, -1, 0];
        inputs.extend((0..4).map(|_| random.bits() as i16));
        simulated(&network, &inputs);
    }
}

#[test]
fn icarus_on_hard_networks() {
    if goes_without(icarus::NAME) {
        return;
    }
    let inputs = [i16::MIN, i16::MAX, -1, 0, 1, -32767, 255, -256];
    for network in [smallest(), edges(), ends_of_range(), largest()] {
        simulated(&network, &inputs);
    }
}

#[test]
fn icarus_on_every_input() {
    if goes_without(icarus::NAME) {
        return;
    }
    let text = text_of(&sheet());
    let all = Inputs::All(i16::MIN..=i16::MAX);
    let outputs = icarus::outputs(&text, &module(&text), &all);
    let products = |x: i16| [3, -6, 45, 0].map(|h| h * x as i128).to_vec();
    let wanted: Vec<Vec<i128>> = (i16::MIN..=i16::MAX).map(products).collect();
    assert!(outputs == wanted);
}

#[test]
fn icarus_on_the_rules() {
    if goes_without(icarus::NAME) {
        return;
    }
    for example in examples::rules() {
        let module = module(&example.text);
        let outputs = icarus::outputs(&example.text, &module, &Inputs::These(&[example.x]));
        assert_eq!(outputs, [[example.value]], "{}", example.text);
    }
}

/// Icarus has the outputs that are proved of the definition; they are all signed and of 64 bits.
#[test]
fn icarus_on_the_proved_samples() {
    if goes_without(icarus::NAME) {
        return;
    }
    for Sample { name, text, values } in samples::samples() {
        let Some((x, patterns)) = values.filter(|_| name != WIDER_NUMBERS) else {
            continue;
        };
        let module = module(&text);
        let outputs = icarus::outputs(&text, &module, &Inputs::These(&[x]));
        let proved = patterns[1..1 + module.outputs].iter();
        let proved: Vec<i128> = proved.map(|pattern| *pattern as i64 as i128).collect();
        assert_eq!(outputs, [proved], "{name}");
    }
}

/// Icarus and the reader have the same values.
#[test]
fn icarus_on_random_modules() {
    if goes_without(icarus::NAME) {
        return;
    }
    let mut random = Random::new(63);
    let inputs = [0, 1, -1, -3, i16::MIN, i16::MAX, 12345, -12345];
    let [mut zeros, mut others] = [0; 2];
    for _ in 0..RANDOM_MODULES {
        let text = modules::module(&mut random);
        let module = module(&text);
        let outputs = icarus::outputs(&text, &module, &Inputs::These(&inputs));
        let values = |x: &i16| module.output_values(*x as i64).unwrap();
        let wanted: Vec<Vec<i128>> = inputs.iter().map(values).collect();
        assert_eq!(outputs, wanted, "{text}");
        let all = wanted.concat();
        zeros += all.iter().filter(|value| **value == 0).count();
        others += all.iter().filter(|value| **value != 0).count();
    }
    println!("{zeros} values of 0, {others} others");
    assert!(others > zeros);
}

/// The rows that no row and no tap uses.
fn left_over(network: &Network) -> Vec<String> {
    let mut used = vec![false; network.row_count];
    let rows = network.rows.chunks(ROW_WORDS).take(network.row_count);
    for row in rows.skip(1) {
        used[row[0] as usize] = true;
        used[row[1] as usize] = true;
    }
    let taps = network.taps.chunks(TAP_WORDS).take(network.tap_count);
    for tap in taps.filter(|tap| tap[0] != NONE) {
        used[tap[1] as usize] = true;
    }
    let unused = (0..network.row_count).filter(|i| !used[*i]);
    unused.map(|i| format!("n{i}")).collect()
}

#[test]
fn verilator_warns_of_rows_left_over_alone() {
    if goes_without(verilator::NAME) {
        return;
    }
    let mut random = Random::new(61);
    let mut networks = vec![smallest(), sheet(), edges(), ends_of_range(), largest()];
    networks.push(mixture::built(&ROW_LEFT_OVER));
    assert_eq!(left_over(&networks[5]), ["n18"]);
    networks.extend((0..LINTED_NETWORKS).map(|_| mixture::network(&mut random)));
    let mut silent = 0;
    for network in &networks {
        let (text, wanted) = (text_of(network), left_over(network));
        assert_eq!(verilator::left_over(&text), wanted, "{text}");
        assert!(verilator::is_silent(&text), "{text}");
        silent += wanted.is_empty() as usize;
    }
    println!("silent on {silent} of {}", networks.len());
    assert!(silent > 10);
}

#[test]
fn yosys_reads() {
    if goes_without(yosys::NAME) {
        return;
    }
    let mut random = Random::new(62);
    let mut texts: Vec<String> = [smallest(), edges(), largest()]
        .iter()
        .map(text_of)
        .collect();
    texts.extend((0..READ_NETWORKS).map(|_| text_of(&mixture::network(&mut random))));
    yosys::reads(&texts);
}

#[test]
fn yosys_proves() {
    if goes_without(yosys::NAME) {
        return;
    }
    let cases = [
        (sheet(), "<<< 1)", "<<< 2)"),
        (ends_of_range(), "<<< 31)", "<<< 30)"),
    ];
    for (network, shift, other) in cases {
        let (text, coefficients) = (text_of(&network), coefficients(&network));
        assert!(yosys::multiplies(&text, &coefficients));
        let altered = text.replacen(shift, other, 1);
        assert!(altered != text && !yosys::multiplies(&altered, &coefficients));
    }
}
