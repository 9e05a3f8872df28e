//! Choices, distances, means, conversions, draws. A case's first word says what it has; values are f32 patterns, a colour is three.
//! 1: n, n values, and the index, the least and the second that smallest_two gives, argmax, argmin.
//! 2: two colours, the weight, and their squared distance. 3: n, n colours, and their mean.
//! 4: n, n conversions by `as f32`, the f64's pattern in two words and the f32's.
//! 5 to 7 open with n, a count and a seed of two words. 5: so many outputs, of two words each, and the state after them. 6: the digest
//! of so many draws of n samples, and the state after them. 7: the digest of the tenths of 1 .. 16,384. A digest starts at the seed;
//! each number changes it to the output from the digest xor the number. Digests and states are two words.

use crate::list::{List, Read};
use foreign::ours::{self, Cycle};

const MOST_VALUES: usize = 16;
const MOST_COLOURS: usize = 40;
const MOST_SAMPLES: usize = 16_384;
const MOST_DRAWS: usize = 65_536;

pub fn case(list: &mut List) -> Read<()> {
    match list.word()? {
        1 => choices(list),
        2 => distance(list),
        3 => mean(list),
        4 => conversions(list),
        5 => outputs(list),
        6 => draws(list),
        7 => tenths(list),
        kind => list.refuse(format!("there is no case {kind}")),
    }
}

fn choices(list: &mut List) -> Read<()> {
    let n = list.number(MOST_VALUES)?;
    let values = list.floats(n)?;
    let (index, least, second) = ours::smallest_two(&values).known();
    list.same_index(index)?;
    list.same_floats(&[least, second])?;
    list.same_index(ours::argmax(&values))?;
    list.same_index(ours::argmin(&values))
}

fn distance(list: &mut List) -> Read<()> {
    let (p, q, weight) = (list.colour()?, list.colour()?, list.float()?);
    list.same_float(ours::sqdist(p, q, weight))
}

fn mean(list: &mut List) -> Read<()> {
    let n = list.number(MOST_COLOURS)?;
    let colours = list.colours(n)?;
    if colours.is_empty() {
        return list.refuse("none have no mean");
    }
    list.same_floats(&ours::mean(&colours))
}

fn conversions(list: &mut List) -> Read<()> {
    for _ in 0..list.word()? {
        let x = f64::from_bits(list.double()?);
        if x.is_nan() {
            return list.refuse("a NaN is asked");
        }
        list.same_float(ours::narrow(x))?;
    }
    Ok(())
}

/// What a case of draws opens with.
struct Opening {
    n: usize,
    count: usize,
    seed: u64,
}

fn opening(list: &mut List) -> Read<Opening> {
    Ok(Opening { n: list.number(MOST_SAMPLES)?, count: list.number(MOST_DRAWS)?, seed: list.double()? })
}

fn outputs(list: &mut List) -> Read<()> {
    let Opening { count, seed: mut state, .. } = opening(list)?;
    for _ in 0..count {
        let (value, after) = ours::next(state);
        list.same_double(value)?;
        state = after;
    }
    list.same_double(state)
}

pub fn digested(digest: u64, n: u64) -> u64 {
    ours::next(digest ^ n).0
}

fn draws(list: &mut List) -> Read<()> {
    let Opening { n, count, seed } = opening(list)?;
    if n == 0 {
        return list.refuse("there is no sample to draw");
    }
    let mut cycle = Cycle::new(n, seed);
    let digest = (0..count).fold(seed, |digest, _| digested(digest, cycle.draw() as u64));
    list.same_double(digest)?;
    list.same_double(cycle.state)
}

fn tenths(list: &mut List) -> Read<()> {
    let seed = opening(list)?.seed;
    let digest = (1..=MOST_SAMPLES).fold(seed, |digest, n| digested(digest, ours::base_iterations(n) as u64));
    list.same_double(digest)
}
