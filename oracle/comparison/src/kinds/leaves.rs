//! prng, cycle, stats, color, and the narrowing of ieee.

use answers::{probed, rust};
use terms::jobs::{self, Colours};
use terms::rng::Rng;

use super::{Kind, kind, whole};
use crate::ours;
use crate::reading::fits;
use crate::tally::Tally;

pub const KINDS: &[Kind] = &[
    kind("narrow", 500_000, 5_000_000, |rng, _, tally| {
        let x = jobs::wide(rng);
        tally.same(ours::narrow(x), x as f32, || format!("{x:e}"));
    }),
    kind("next", 100_000, 1_000_000, |rng, _, tally| {
        let seed = if rng.once_in(4) { rng.bits() % 5 } else { rng.bits() };
        let (outputs, state) = probed(2.15).next(seed, 1);
        tally.same(ours::next(seed), (outputs[0], state), || format!("{seed:x}"));
    }),
    kind("shuffle", 2_000, 20_000, shuffle),
    kind("cycle", 1_000, 10_000, cycle),
    whole("tenth", 16_384, |_, case, tally| {
        let n = case as usize + 1;
        tally.same(ours::base_iterations(n), probed(2.15).base_iterations(n), || n.to_string());
    }),
    kind("smallest_two", 50_000, 500_000, |rng, _, tally| {
        let values = jobs::values(rng);
        let (two, right) = (ours::smallest_two(&values), rust(2.15).smallest_two(&values));
        tally.same((two.known(), two.next), (right, fits::next(&values, right.0)), || format!("{values:?}"));
    }),
    kind("argmax", 50_000, 500_000, |rng, _, tally| {
        let values = jobs::values(rng);
        tally.same(ours::argmax(&values), rust(2.15).argmax(&values), || format!("{values:?}"));
    }),
    kind("argmin", 50_000, 500_000, |rng, _, tally| {
        let values = jobs::values(rng);
        tally.same(ours::argmin(&values), rust(2.15).argmin(&values), || format!("{values:?}"));
    }),
    kind("sqdist", 500_000, 5_000_000, sqdist),
    kind("mean", 10_000, 100_000, |rng, _, tally| {
        let n = rng.pick(&[1, 2, 3, 10, 64, 1000]);
        let colours = Colours::any(rng, 2.0).many(rng, n, 2.0);
        tally.same(Some(ours::mean(&colours)), rust(2.15).mean(&colours), || format!("{colours:?}"));
    }),
];

/// Any items, of lengths up to the most samples that a job has.
fn shuffle(rng: &mut Rng, _: u64, tally: &mut Tally) {
    let n = match rng.below(20) {
        0 => 0,
        1 => 1,
        2 => 2,
        3 => rng.among(1000, 16_384),
        _ => rng.among(1, 300),
    };
    let seed = rng.bits();
    let mut items: Vec<u32> = (0..n).map(|_| rng.word()).collect();
    let mut copy = items.clone();
    let state = ours::shuffle(seed, &mut items);
    let rusts = probed(2.15).shuffle_state(seed, &mut copy);
    tally.same((items, state), (copy, rusts), || format!("{n} items, seed {seed:x}"));
}

/// The draws of up to four rounds.
fn cycle(rng: &mut Rng, _: u64, tally: &mut Tally) {
    let n = if rng.once_in(50) { rng.among(1000, 16_384) } else { rng.among(1, 120) };
    let (seed, draws) = (rng.bits(), rng.among(1, 4 * n));
    let mut cycle = ours::Cycle::new(n, seed);
    let ours: Vec<usize> = (0..draws).map(|_| cycle.draw()).collect();
    tally.same(ours, probed(2.15).cycle(seed, n, draws), || format!("{draws} draws of {n}, seed {seed:x}"));
}

/// Within what a run holds, and now and then any floats at all.
fn sqdist(rng: &mut Rng, _: u64, tally: &mut Tally) {
    let weight = jobs::weight(rng);
    let colours = Colours::any(rng, 4.0).many(rng, 2, 4.0);
    let (p, q) = if rng.once_in(8) { (any(rng), any(rng)) } else { (colours[0], colours[1]) };
    tally.same(ours::sqdist(p, q, weight), rust(weight).sqdist(p, q), || format!("{p:?} {q:?} {weight:?}"));
}

fn any(rng: &mut Rng) -> terms::Colour {
    [0; 3].map(|_| f32::from_bits(rng.word()))
}
