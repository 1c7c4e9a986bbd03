//! The linked archive `libkeymap.a`, for the comparison and for the benchmark.

extern "C" {
    /// `include/keymap.h` says what it does.
    fn keymap_run(
        map: *const u8,
        map_count: usize,
        keys: *const u8,
        keys_count: usize,
        output: *mut u8,
        output_count: usize,
        budget: u16,
    ) -> u64;
}

pub fn run(map: &[u8], keys: &[u8], output: &mut [u8], budget: u16) -> u64 {
    // the slices are whole, and none of them is written but the output
    unsafe { keymap_run(map.as_ptr(), map.len(), keys.as_ptr(), keys.len(), output.as_mut_ptr(), output.len(), budget) }
}
