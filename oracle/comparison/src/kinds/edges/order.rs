//! Every two numbers of a hand-in and of the single fit, each by a fault of its own: the first in the order of docs/SCOPE.md is told.

use terms::Tile;
use terms::rng::Rng;

use super::runs::{asks, standing};
use super::{at, job, listed, plain, tiles};
use crate::call::{Ask, Call};
use crate::kinds::calls;
use crate::kinds::runs::asked;
use crate::reading::record::before;
use crate::table::Refusal;
use crate::tally::Tally;

/// A number with its index, and what is done to a call that is right.
type Fault<T> = (Refusal, fn(&mut T));

pub fn compare(rng: &mut Rng, size: usize, tally: &mut Tally) {
    let call = standing(&job(size, [2, 2], tiles(2, 3), 20), 3);
    let [_, _, hand_in, _] = asks(&call);
    every_two(tally, &(call, hand_in), &of_hand_in(), |(call, ask), tally| asked(call, ask, tally));
    let fit = plain::good(rng, size, &[Tile::default()]);
    every_two(tally, &fit, &of_single_fit(), calls::fitted);
}

/// The later fault is there first: what it names may be gone when the earlier one is there too.
fn every_two<T: Clone>(tally: &mut Tally, good: &T, order: &[Fault<T>], compare: impl Fn(&T, &mut Tally) -> Refusal) {
    for (i, j) in (0..order.len()).flat_map(|j| (0..=j).map(move |i| (i, j))) {
        let [(right, damage), (later, damage_later)] = [order[i], order[j]];
        let mut call = good.clone();
        damage_later(&mut call);
        damage(&mut call);
        let compared = compare(&call, tally);
        listed(tally, &format!("{right:?} and {later:?}"), "order", compared, right);
    }
}

fn of_hand_in() -> Vec<Fault<(Call, Ask)>> {
    vec![
        (at(2, 0), |(call, _)| call.given.size = 128),
        (at(2, 0), |(call, _)| call.n = 16_385),
        (at(3, 0), |(call, _)| call.memory.hints = Vec::new()),
        (at(1, 0), |(call, _)| (call.n, call.samples, call.memory.order) = Default::default()),
        (at(4, 0), |(call, _)| call.given.weight = 0.0),
        (at(5, 0), |(call, _)| call.given.tiles[0] = 1),
        (at(6, 0), |(call, _)| call.given.counts[5] = 0),
        (at(7, 5), |(call, _)| call.given.colours[17] = f32::NAN),
        (at(8, 0), |(call, _)| call.samples[0] = 2),
        (at(20, 0), |(call, _)| call.memory.record[6] = 0),
        (at(10, 0), |(call, _)| call.memory.record[5] = 1),
        (at(16, 3), |(call, _)| call.memory.palette[9] = f32::NAN),
        (at(9, 0), |(call, _)| call.memory.order[19] = 20),
        (at(11, 0), |(call, _)| finish(call)),
        (at(17, 2), |(_, ask)| ask.colours_mut().into_iter().for_each(|colours| colours[8] = f32::INFINITY)),
    ]
}

/// The record of a finished run.
fn finish(call: &mut Call) {
    (call.memory.record[1], call.memory.record[4]) = (7, before(&call.given, call.n, 7));
}

/// Of an empty tile, which is the last fault itself and has no count for 6.
fn of_single_fit() -> Vec<Fault<calls::Call>> {
    vec![
        (at(2, 0), |call| call.given.size = 128),
        (at(2, 0), |call| call.given.t = 0),
        (at(3, 0), |call| call.hints = Vec::new()),
        (at(4, 0), |call| call.given.weight = f32::NAN),
        (at(5, 0), |call| call.given.tiles[0] = 1),
        (at(7, 3), |call| call.palette[10] = f32::NAN),
        (at(15, 0), |_| {}),
    ]
}
