//! The core's C entry for running, as `fir.h` declares it.

use crate::answer::Answer;
use crate::network::Network;

extern "C" {
    fn fir_run(
        rows: *const u32,
        rows_length: usize,
        row_count: usize,
        taps: *const u32,
        taps_length: usize,
        tap_count: usize,
        samples: *const i16,
        sample_count: usize,
        registers: *mut u64,
        register_count: usize,
        outputs: *mut i64,
        output_count: usize,
    ) -> u64;
}

#[inline]
pub fn run(
    network: &Network,
    samples: &[i16],
    registers: &mut [u64],
    outputs: &mut [i64],
) -> Answer {
    // SAFETY: slices are never null, and the mutable ones overlap nothing.
    unsafe {
        fir_run(
            network.rows.as_ptr(),
            network.rows.len(),
            network.row_count,
            network.taps.as_ptr(),
            network.taps.len(),
            network.tap_count,
            samples.as_ptr(),
            samples.len(),
            registers.as_mut_ptr(),
            registers.len(),
            outputs.as_mut_ptr(),
            outputs.len(),
        )
    }
    .into()
}
