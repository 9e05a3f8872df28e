//! Edges of a run's job and of the memory lent to it, through start, advance, hand-in and result.

use terms::{Job, Sample, Tile, sizes_word};

use super::{DONE, around, at, colours_in_all, component, counted, job, listed, sums, tiles, weights};
use crate::call::{Ask, Call};
use crate::lent::nans;
use crate::ours;
use crate::reading::record::{before, round};
use crate::reading::run::outcome;
use crate::table::Refusal;
use crate::tally::Tally;

/// The stages in which start, advance, hand-in and result are tried.
const MOMENTS: [u64; 4] = [0, 2, 3, 7];

pub fn compare(size: usize, tally: &mut Tally) {
    of_sizes(size, tally);
    of_tiles(size, tally);
    of_samples(size, tally);
    of_memory(size, tally);
    of_lengths(size, tally);
}

/// A job's run at the first draw of a stage, or at a stop.
pub fn standing(job: &Job, stage: u64) -> Call {
    let mut call = Call::of(job);
    let (n, places) = (call.n, call.memory.palette.len());
    call.memory.order = (0..n as u32).rev().collect();
    call.memory.palette = (0..places).map(|k| k as f32 / 1024.0).collect();
    // outside stage 2 the second palette holds what it was found with
    if stage == 2 {
        call.memory.least = vec![0.5; places];
    }
    let left = round(&call.given, n, stage).0;
    let error = if stage == 2 { 1f32.to_bits().into() } else { 0 };
    call.memory.record = vec![77, stage, 0, left, before(&call.given, n, stage), error, sizes_word(job.sizes())];
    call
}

/// What each of the four calls is given.
pub fn asks(call: &Call) -> [Ask; 4] {
    let places = call.memory.palette.len();
    [Ask::Start(9), Ask::Advance(3), Ask::HandIn(vec![0.25; places]), Ask::Result(nans(places))]
}

/// The call and all lent memory, beside the reading, whose number and index are beside those that are listed. A start, which finds
/// nothing of use, and what is refused are asked once more with no number in the palettes.
pub fn ask(tally: &mut Tally, what: &str, call: &Call, ask: &Ask, right: impl Into<Refusal>) {
    let compared = asked(tally, what, call, ask);
    listed(tally, what, ask.name(), compared, right);
    if compared != DONE || matches!(ask, Ask::Start(_)) {
        asked(tally, what, &call.without_numbers(), ask);
    }
}

/// Gives what the reading says of it.
fn asked(tally: &mut Tally, what: &str, call: &Call, ask: &Ask) -> Refusal {
    let right = outcome(call, ask);
    let refusal = right.refusal;
    tally.answered(ask.name(), call.given.size, refusal);
    if refusal.number == 0 {
        tally.tiles(&call.given.tiles());
    }
    tally.left(right.floats());
    tally.same(ours::answer(call, ask), right, || format!("{what}: {}", ask.name()));
    refusal
}

/// The four calls, after an edit of the memory at their moment and of what they are given.
pub fn each(
    tally: &mut Tally,
    what: &str,
    job: &Job,
    right: [impl Into<Refusal>; 4],
    edit: impl Fn(&mut Call, &mut Ask),
) {
    for ((k, stage), right) in MOMENTS.into_iter().enumerate().zip(right) {
        let mut call = standing(job, stage);
        let mut asked = asks(&call)[k].clone();
        edit(&mut call, &mut asked);
        ask(tally, what, &call, &asked, right);
    }
}

fn of_sizes(size: usize, tally: &mut Tally) {
    let job = |sizes: [usize; 2], t: usize, n: usize| job(size, sizes, tiles(t, 3), n);
    let mut whole = |what: &str, job: Job, number: u32| each(tally, what, &job, [number; 4], |_, _| {});
    for (n, number) in [(16_384, 0), (16_385, 2), (0, 1), (10, 0)] {
        whole(&format!("{n} samples"), job([2, 2], 2, n), number);
    }
    for (size, number) in [(16, 0), (17, 2), (1, 0)] {
        whole(&format!("S {size}"), job([size, 2], 2, 20), number);
        whole(&format!("C {size}"), job([2, size], 2, 20), number);
    }
    for (t, number) in [(1024, 0), (1025, 2)] {
        whole(&format!("T {t}"), job([2, 2], t, 20), number);
    }
    for n in [1, 9] {
        // with nothing to draw there is no record in stage 2, where advance is tried
        each(tally, &format!("{n} samples"), &job([2, 2], 2, n), [0, 10, 0, 0], |_, _| {});
    }
    for size in [0, 1 << 32, 1 << 63, usize::MAX] {
        let good = job([2, 2], 2, 20);
        each(tally, &format!("S {size}"), &good, [2; 4], |call, _| call.given.s = size);
        each(tally, &format!("C {size}"), &good, [2; 4], |call, _| call.given.c = size);
        each(tally, &format!("T {size}"), &good, [2; 4], |call, _| call.given.t = size);
    }
}

fn of_tiles(size: usize, tally: &mut Tally) {
    let job = |tiles: Vec<Tile>| job(size, [2, 2], tiles, 20);
    let mut whole = |what: &str, job: Job, number: u32| each(tally, what, &job, [number; 4], |_, _| {});
    for (n, number) in [(16_384, 0), (16_385, 5)] {
        whole(&format!("{n} tile colours"), job(colours_in_all(size, n)), number);
    }
    for (n, number) in [(size, 0), (size + 1, 5)] {
        whole(&format!("a tile of {n} colours"), job(tiles(1, n)), number);
    }
    for (counts, number) in sums(size).into_iter().chain([(vec![0, 1], 6), (vec![u32::MAX, 1], 6)]) {
        whole(&format!("counts {counts:?}"), job(counted(&counts)), number);
    }
    for (x, number) in around(2.0, 7) {
        whole(&format!("component {x:?}"), job(component(x)), number);
    }
    for (weight, number) in weights() {
        whole(&format!("weight {weight:?}"), Job { weight, ..job(tiles(2, 3)) }, number);
    }
}

/// Tile and place, the last that are there and the first that are not.
fn of_samples(size: usize, tally: &mut Tally) {
    for (tile, place, number) in [(1, 2, 0), (2, 0, 8), (1, 3, 8), (0, 3, 8)] {
        let mut job = job(size, [2, 2], tiles(2, 3), 20);
        job.samples[19] = Sample { tile, place };
        each(tally, &format!("tile {tile} place {place}"), &job, [number; 4], |_, _| {});
    }
}

fn of_memory(size: usize, tally: &mut Tally) {
    let good = job(size, [2, 2], tiles(2, 3), 20);
    for (x, number) in around(4.0, 16) {
        let what = format!("working component {x:?}");
        let last = at(number, 3);
        each(tally, &what, &good, [DONE, last, last, last], |call, _| call.memory.palette[11] = x);
        // the second palette is looked at in stage 2 alone, where only advance is tried; its colours are counted on
        let what = format!("component {x:?} of the second palette");
        each(tally, &what, &good, [DONE, at(number, 4), DONE, DONE], |call, _| call.memory.least[0] = x);
    }
    for (x, number) in around(2.0, 17) {
        let what = format!("handed-in component {x:?}");
        each(tally, &what, &good, [DONE, DONE, at(number, 3), DONE], |_, ask| {
            if let Ask::HandIn(colours) = ask {
                colours[11] = x;
            }
        });
    }
    for (entry, number) in [(19, 0), (20, 9), (u32::MAX, 9)] {
        let what = format!("order entry {entry}");
        each(tally, &what, &good, [0, number, number, number], |call, _| call.memory.order[19] = entry);
    }
    for stage in [3, 5, 6, 7] {
        let what = format!("advance in stage {stage}");
        ask(tally, &what, &standing(&good, stage), &Ask::Advance(1), 11);
    }
    for stage in [0, 1, 2, 4, 7] {
        let call = standing(&good, stage);
        let [_, _, hand_in, result] = asks(&call);
        ask(tally, &format!("hand-in in stage {stage}"), &call, &hand_in, 11);
        ask(tally, &format!("result in stage {stage}"), &call, &result, if stage == 7 { 0 } else { 11 });
    }
}

/// Each lent slice with one item more and one less.
fn of_lengths(size: usize, tally: &mut Tally) {
    fn other<T: Copy + Default>(items: &mut Vec<T>, more: bool) {
        items.resize(if more { items.len() + 1 } else { items.len() - 1 }, T::default());
    }
    let good = job(size, [2, 2], tiles(2, 3), 20);
    for more in [false, true] {
        let mut wrong = |what: &str, edit: &dyn Fn(&mut Call)| {
            each(tally, what, &good, [3; 4], |call, _| edit(call));
        };
        wrong("length of the tile table", &|call| other(&mut call.given.tiles, more));
        wrong("length of the colours", &|call| other(&mut call.given.colours, more));
        wrong("length of the counts", &|call| other(&mut call.given.counts, more));
        wrong("length of the samples", &|call| other(&mut call.samples, more));
        wrong("length of the order", &|call| other(&mut call.memory.order, more));
        wrong("length of the hints", &|call| other(&mut call.memory.hints, more));
        wrong("length of the palette", &|call| other(&mut call.memory.palette, more));
        wrong("length of the second palette", &|call| other(&mut call.memory.least, more));
        wrong("length of the record", &|call| other(&mut call.memory.record, more));
        each(tally, "length of what is handed in, or of the room", &good, [0, 0, 3, 3], |_, ask| {
            if let Some(colours) = ask.colours_mut() {
                other(colours, more);
            }
        });
    }
}
