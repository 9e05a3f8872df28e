//! What needs no job, as Rust has it: narrowing, prng, cycle, stats, color, the nearest colours. Each caller meets what the function
//! requires.

use crate::leaves::{
    probe_argmax, probe_argmin, probe_base_iterations, probe_cycle_new, probe_cycle_next, probe_narrow, probe_next,
    probe_shuffle, probe_smallest_two, probe_sqdist, probe_with_other,
};
use crate::lend;
use crate::palettes::{probe_nearest, probe_nearest_two, probe_view_nearest, probe_view_nearest_two};
use crate::training::probe_mean;

/// An Oklab colour: l, a, b.
pub type Colour = [f32; 3];

/// The least and the next of the others, each with its value.
#[derive(Clone, Copy, Debug)]
pub struct Two {
    pub index: usize,
    pub dist: f32,
    pub next: usize,
    pub second: f32,
}

impl Two {
    /// As it is before any value.
    pub const NONE: Self = Self { index: 0, dist: f32::INFINITY, next: 0, second: f32::INFINITY };

    /// What the Rust's answer has.
    pub fn known(self) -> (usize, f32, f32) {
        (self.index, self.dist, self.second)
    }
}

pub fn narrow(x: f64) -> f32 {
    unsafe { probe_narrow(x) }
}

/// The output, and the state after it.
pub fn next(state: u64) -> (u64, u64) {
    let mut after = 0;
    let value = unsafe { probe_next(state, &mut after) };
    (value, after)
}

/// Gives the state after it.
pub fn shuffle(state: u64, items: &mut [u32]) -> u64 {
    unsafe { lend!(probe_shuffle(state, mut items)) }
}

pub fn base_iterations(n: usize) -> usize {
    unsafe { probe_base_iterations(n) as usize }
}

/// The order of draws in memory of its own.
pub struct Cycle {
    pub order: Vec<u32>,
    pub state: u64,
    pub made: u64,
}

impl Cycle {
    pub fn new(n: usize, seed: u64) -> Self {
        let mut order = vec![u32::MAX; n];
        let state = unsafe { lend!(probe_cycle_new(mut order, seed)) };
        Cycle { order, state, made: 0 }
    }

    /// The next sample.
    pub fn draw(&mut self) -> usize {
        let (order, mut after) = (&mut self.order, 0);
        let sample = unsafe { lend!(probe_cycle_next(mut order, self.state, self.made, &mut after)) };
        (self.state, self.made) = (after, self.made + 1);
        sample as usize
    }
}

/// Value by value, as the run has them.
pub fn smallest_two(values: &[f32]) -> Two {
    let mut two = Two::NONE;
    for (i, &value) in values.iter().enumerate() {
        two.index = unsafe { probe_smallest_two(two.index, &mut two.dist, &mut two.next, &mut two.second, i, value) };
    }
    two.next = unsafe { probe_with_other(two.index, two.dist, two.next, two.second, values.len()) };
    two
}

/// No value is a NaN.
pub fn argmax(values: &[f32]) -> usize {
    unsafe { lend!(probe_argmax(ref values)) }
}

/// No value is a NaN.
pub fn argmin(values: &[f32]) -> usize {
    unsafe { lend!(probe_argmin(ref values)) }
}

pub fn sqdist(p: Colour, q: Colour, weight: f32) -> f32 {
    unsafe { probe_sqdist(p[0], p[1], p[2], q[0], q[1], q[2], weight) }
}

/// Of one colour at least: the samples are the colours of one tile, in order.
pub fn mean(colours: &[Colour]) -> Colour {
    let (flat, n) = (colours.as_flattened(), colours.len() as u32);
    let (tiles, samples): (_, Vec<u32>) = ([0, n], (0..n).flat_map(|place| [0, place]).collect());
    let [mut l, mut a, mut b] = [0.0; 3];
    unsafe { lend!(probe_mean(ref tiles, ref flat, ref samples, &mut l, &mut a, &mut b)) };
    [l, a, b]
}

pub fn nearest(sub: &[Colour], q: Colour, weight: f32) -> (usize, f32) {
    let (flat, mut dist) = (sub.as_flattened(), 0.0);
    let index = unsafe { lend!(probe_nearest(ref flat, q[0], q[1], q[2], weight, &mut dist)) };
    (index, dist)
}

/// By the view.
pub fn view_nearest(sub: &[Colour], q: Colour, weight: f32) -> (usize, f32) {
    let (flat, mut dist) = (sub.as_flattened(), 0.0);
    let index = unsafe { lend!(probe_view_nearest(ref flat, q[0], q[1], q[2], weight, &mut dist)) };
    (index, dist)
}

pub fn nearest_two(sub: &[Colour], q: Colour, weight: f32) -> Two {
    let (flat, [l, a, b], mut two) = (sub.as_flattened(), q, Two::NONE);
    two.index =
        unsafe { lend!(probe_nearest_two(ref flat, l, a, b, weight, &mut two.dist, &mut two.next, &mut two.second)) };
    two
}

/// By the view.
pub fn view_nearest_two(sub: &[Colour], q: Colour, weight: f32) -> Two {
    let (flat, [l, a, b], mut two) = (sub.as_flattened(), q, Two::NONE);
    two.index = unsafe {
        lend!(probe_view_nearest_two(ref flat, l, a, b, weight, &mut two.dist, &mut two.next, &mut two.second))
    };
    two
}
