//! ieee's narrowing, prng, cycle, stats, color.

unsafe extern "C" {
    pub fn probe_narrow(x: f64) -> f32;
    pub fn probe_next(state: u64, after: &mut u64) -> u64;
    pub fn probe_shuffle(state: u64, items: *mut u32, n: usize) -> u64;
    pub fn probe_base_iterations(n: usize) -> u64;
    pub fn probe_cycle_new(order: *mut u32, n: usize, seed: u64) -> u64;
    pub fn probe_cycle_next(order: *mut u32, n: usize, state: u64, made: u64, after: &mut u64) -> u32;
    pub fn probe_smallest_two(
        index: usize,
        dist: &mut f32,
        next: &mut usize,
        second: &mut f32,
        i: usize,
        d: f32,
    ) -> usize;
    pub fn probe_with_other(index: usize, dist: f32, next: usize, second: f32, n: usize) -> usize;
    pub fn probe_argmax(values: *const f32, n: usize) -> usize;
    pub fn probe_argmin(values: *const f32, n: usize) -> usize;
    pub fn probe_sqdist(pl: f32, pa: f32, pb: f32, ql: f32, qa: f32, qb: f32, weight: f32) -> f32;
}
