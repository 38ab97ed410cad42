//! The core's C entry for Verilog, as `fir.h` declares it.

use crate::answer::Answer;
use crate::network::Network;

extern "C" {
    fn fir_verilog(
        rows: *const u32,
        rows_length: usize,
        row_count: usize,
        taps: *const u32,
        taps_length: usize,
        tap_count: usize,
        text: *mut u8,
        text_length: usize,
        length: *mut usize,
    ) -> u64;
}

#[inline]
pub fn verilog(network: &Network, text: &mut [u8], length: &mut usize) -> Answer {
    // SAFETY: slices and references are never null, and the mutable ones overlap nothing.
    unsafe {
        fir_verilog(
            network.rows.as_ptr(),
            network.rows.len(),
            network.row_count,
            network.taps.as_ptr(),
            network.taps.len(),
            network.tap_count,
            text.as_mut_ptr(),
            text.len(),
            length,
        )
    }
    .into()
}
