//! The calls of the proved library. A slice goes as a pointer and a length.

unsafe extern "C" {
    pub safe fn p3_speed_product_chain(field: u32, start: u64, factor: u64, count: u64) -> u64;
    pub fn p3_speed_multiplied_slices(field: u32, left: *const u64, left_length: usize, right: *const u64, right_length: usize, rounds: u64) -> u64;
    pub fn p3_speed_added_slices(field: u32, left: *const u64, left_length: usize, right: *const u64, right_length: usize, rounds: u64) -> u64;
    pub fn p3_speed_sums(field: u32, numbers: *const u64, length: usize, rounds: usize) -> u64;
    pub fn p3_speed_array_sums(field: u32, numbers: *const u64, length: usize, rounds: usize) -> u64;
    pub safe fn p3_speed_power_chain(field: u32, start: u64, step: u64, exponent: u64, count: u64) -> u64;
    pub fn p3_speed_dot_products(field: u32, left: *const u64, left_length: usize, right: *const u64, right_length: usize, rounds: usize) -> u64;
    pub fn p3_speed_linear_combinations(field: u32, left: *const u64, left_length: usize, right: *const u64, right_length: usize, rounds: usize) -> u64;
    pub fn p3_speed_horner_chain(field: u32, numbers: *const u64, length: usize, start: u64, rounds: u64) -> u64;
    pub fn p3_speed_horner_slice_chain(field: u32, numbers: *const u64, length: usize, start: u64, rounds: u64) -> u64;
    pub safe fn p3_speed_power_lists(field: u32, base: u64, length: usize, rounds: u64) -> u64;
    pub safe fn p3_speed_inverse_chain(field: u32, start: u64, step: u64, count: u64) -> u64;
    pub safe fn p3_speed_root_chain(field: u32, start: u64, step: u64, count: u64) -> u64;
    pub fn p3_speed_extension_products(extension: u32, value: *mut u64, length: usize, factor: *const u64, factor_length: usize, count: u64);
    pub fn p3_speed_extension_squares(extension: u32, value: *mut u64, length: usize, count: u64);
    pub fn p3_speed_extension_inverses(extension: u32, value: *mut u64, length: usize, step: *const u64, step_length: usize, count: u64);
    pub fn p3_speed_lane_sums(field: u32, lanes: u32, left: *const u64, left_length: usize, right: *const u64, right_length: usize, rounds: u64) -> u64;
    pub fn p3_speed_lane_differences(field: u32, lanes: u32, left: *const u64, left_length: usize, right: *const u64, right_length: usize, rounds: u64) -> u64;
    pub fn p3_speed_lane_slice_products(field: u32, lanes: u32, left: *const u64, left_length: usize, right: *const u64, right_length: usize, rounds: u64) -> u64;
    pub fn p3_speed_lane_products(field: u32, lanes: u32, left: *const u64, left_length: usize, right: *const u64, right_length: usize, rounds: u64) -> u64;
    pub fn p3_speed_lane_dot_products(field: u32, lanes: u32, left: *const u64, left_length: usize, right: *const u64, right_length: usize, rounds: u64) -> u64;
    pub fn p3_speed_slice_sums(field: u32, lanes: u32, left: *const u64, left_length: usize, right: *const u64, right_length: usize, rounds: u64) -> u64;
    pub fn p3_speed_slice_scalings(field: u32, lanes: u32, left: *const u64, left_length: usize, right: *const u64, right_length: usize, rounds: u64) -> u64;
    pub fn p3_speed_scaled_slice_sums(field: u32, lanes: u32, left: *const u64, left_length: usize, right: *const u64, right_length: usize, rounds: u64) -> u64;
    pub fn p3_speed_packed_products(extension: u32, lanes: u32, value: *const u64, length: usize, factor: *const u64, factor_length: usize, count: u64) -> u64;
    pub fn p3_speed_packed_inverses(extension: u32, lanes: u32, value: *const u64, length: usize, factor: *const u64, factor_length: usize, count: u64) -> u64;
    pub fn p3_speed_inversions(field: u32, numbers: *const u64, length: usize, rounds: u64) -> u64;
    pub fn p3_speed_coset_values(field: u32, numbers: *const u64, length: usize, shift: u64, log_size: usize, rounds: u64) -> u64;
    pub fn p3_speed_calculator(input: *const u8, input_length: usize, output: *mut u8, output_length: usize) -> usize;
}
