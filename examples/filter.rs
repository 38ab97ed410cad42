//! A filter from coefficients to outputs: building, running. In the repository's root:
//!   ./library
//!   rustc -O -L target/staticlib -l static=fir examples/filter.rs -o target/filter_rust

#[rustfmt::skip]
extern "C" {
    fn fir_build(
        coefficients: *const i32, coefficient_count: usize, choices: *const u32, choice_count: usize,
        rows: *mut u32, rows_length: usize, taps: *mut u32, taps_length: usize, row_count: *mut usize,
    ) -> u64;

    fn fir_run(
        rows: *const u32, rows_length: usize, row_count: usize,
        taps: *const u32, taps_length: usize, tap_count: usize,
        samples: *const i16, sample_count: usize, registers: *mut u64, register_count: usize,
        outputs: *mut i64, output_count: usize,
    ) -> u64;
}

/// A network in the core's tables.
struct Network {
    rows: Vec<u32>,
    row_count: usize,
    taps: Vec<u32>,
    tap_count: usize,
}

/// The network of these coefficients, with the first form of each, or the refusal.
fn build(coefficients: &[i32]) -> Result<Network, u64> {
    let choices = vec![0u32; coefficients.len()];
    let mut network = Network {
        rows: vec![0; 20480],
        row_count: 0,
        taps: vec![0; 768],
        tap_count: coefficients.len(),
    };
    // SAFETY: slices and references are never null, and the mutable ones overlap nothing.
    let answer = unsafe {
        fir_build(
            coefficients.as_ptr(),
            coefficients.len(),
            choices.as_ptr(),
            choices.len(),
            network.rows.as_mut_ptr(),
            network.rows.len(),
            network.taps.as_mut_ptr(),
            network.taps.len(),
            &mut network.row_count,
        )
    };
    (answer == 0).then_some(network).ok_or(answer)
}

/// One output for each sample, or the refusal.
fn run(network: &Network, samples: &[i16], registers: &mut [u64]) -> Result<Vec<i64>, u64> {
    let mut outputs = vec![0; samples.len()];
    // SAFETY: as above.
    let answer = unsafe {
        fir_run(
            network.rows.as_ptr(),
            network.rows.len(),
            network.row_count,
            network.taps.as_ptr(),
            network.taps.len(),
            network.tap_count,
            samples.as_ptr(),
            samples.len(),
            registers.as_mut_ptr(),
            registers.len(),
            outputs.as_mut_ptr(),
            outputs.len(),
        )
    };
    (answer == 0).then_some(outputs).ok_or(answer)
}

/// A refusal's number is the upper half of the answer, its place the lower.
fn main() -> Result<(), u64> {
    let network = build(&[3, -6, 45, 0])?;
    let mut registers = [0; 256];
    let outputs = run(&network, &[1, 2, -32768], &mut registers)?;
    let adders = network.row_count - 1; // of the rows
    println!("adders {adders}, outputs {outputs:?}");
    Ok(())
}
