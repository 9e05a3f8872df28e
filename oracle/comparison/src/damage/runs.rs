//! Calls of a run on memory that a stranger made: good ones with a record of any stage, and damaged copies.

use terms::jobs::{self, Colours};
use terms::rng::Rng;
use terms::sizes_word;

use super::{component, damage, length};
use crate::call::{Ask, Call, Memory};
use crate::lent::nans;
use crate::reading::record::{before, round, waits};
use crate::table::{self, Given};

/// A job with a record of any stage that has one.
pub fn good(rng: &mut Rng) -> Call {
    let job = jobs::job(rng, 60);
    let mut call = Call::of(&job);
    let (s, c, n, t) = (job.s, job.c, job.samples.len(), job.tiles.len());
    let working = |rng: &mut Rng| Colours::any(rng, 4.0).many(rng, s * c, 4.0).as_flattened().to_vec();
    call.memory = Memory {
        order: (0..n).map(|_| rng.below(n) as u32).collect(),
        hints: jobs::hints(rng, t, s).into_iter().map(|hint| hint as u32).collect(),
        palette: working(rng),
        least: working(rng),
        record: record(rng, &call.given, n),
    };
    if call.stage() != 2 && rng.once_in(2) {
        // outside stage 2 anything may stand in the second palette
        call.memory.least = anything(rng, 3 * s * c);
    }
    call
}

/// Floats of any bits, or no number among them.
fn anything(rng: &mut Rng, n: usize) -> Vec<f32> {
    if rng.once_in(2) { nans(n) } else { (0..n).map(|_| f32::from_bits(rng.word())).collect() }
}

fn record(rng: &mut Rng, given: &Given, n: usize) -> Vec<u64> {
    let stage = loop {
        let stage = rng.below(8) as u64;
        let (size, rounds) = round(given, n, stage);
        if waits(stage) || (size > 0 && rounds > 0) {
            break stage;
        }
    };
    let (size, rounds) = round(given, n, stage);
    let (done, left) = match waits(stage) {
        true => (0, 0),
        false => (rng.below(rounds as usize) as u64, rng.among(1, size as usize) as u64),
    };
    let error = if stage == 2 { u64::from(rng.word() % 0x7f80_0000) } else { 0 };
    let made = before(given, n, stage) + done * size + (size - left);
    vec![rng.bits(), stage, done, left, made, error, sizes_word([given.s, given.c, given.t, n])]
}

/// Every call of a run, each with whatever it may be given.
pub fn asks(rng: &mut Rng, call: &Call) -> [Ask; 4] {
    let (s, c) = (call.given.s, call.given.c);
    let allotment = rng.pick(&[0, 1, 2, 5, 40, u64::MAX]);
    let reduced = jobs::reduced(rng, s, c).as_flattened().to_vec();
    let room = anything(rng, 3 * s * c);
    [Ask::Start(rng.bits()), Ask::Advance(allotment), Ask::HandIn(reduced), Ask::Result(room)]
}

/// Up to three damages of the call and of what is asked.
pub fn damaged(rng: &mut Rng, call: &mut Call, asks: &mut [Ask; 4]) {
    for _ in 0..rng.pick(&[0, 1, 1, 2, 3]) {
        let memory = &mut call.memory;
        match rng.below(13) {
            0 => wrong_length(rng, call, asks),
            1 => call.n = rng.pick(&[0, call.n.wrapping_add(1), 16_385, usize::MAX, 1 << 63]),
            2 | 3 => damage_record(rng, call),
            4 => damage_sizes(rng, call),
            5 => component(rng, &mut memory.palette, 4.0),
            6 => component(rng, &mut memory.least, 4.0),
            7 => asks.iter_mut().filter_map(Ask::colours_mut).for_each(|colours| component(rng, colours, 2.0)),
            8 => entry(rng, &mut memory.order, call.n),
            9 => entry(rng, &mut call.samples, 1),
            10 if rng.once_in(4) => {
                call.n = 0;
                (call.samples, memory.order) = Default::default();
            }
            _ => damage(rng, &mut call.given, &mut Vec::new()),
        }
    }
}

fn wrong_length(rng: &mut Rng, call: &mut Call, asks: &mut [Ask; 4]) {
    let memory = &mut call.memory;
    match rng.below(7) {
        0 => length(rng, &mut call.samples),
        1 => length(rng, &mut memory.order),
        2 => length(rng, &mut memory.hints),
        3 => length(rng, &mut memory.palette),
        4 => length(rng, &mut memory.least),
        5 => length(rng, &mut memory.record),
        _ => asks.iter_mut().filter_map(Ask::colours_mut).for_each(|colours| length(rng, colours)),
    }
}

fn damage_record(rng: &mut Rng, call: &mut Call) {
    let record = &mut call.memory.record;
    if record.is_empty() {
        return;
    }
    let place = rng.below(record.len());
    let right = record[place];
    let any = rng.below(10) as u64;
    let pattern = rng.pick(&[0x7f7f_ffff, 0x7f80_0000, 0x8000_0000, 1 << 32, 0xffff_ffff, 0x7fc0_0000]);
    record[place] = rng.pick(&[right.wrapping_add(1), right.wrapping_sub(1), 0, any, u64::MAX, 1 << 63, pattern]);
    // the draws made may follow, so that another test is left to see it
    if rng.once_in(2) && record.len() == 7 && record[1] < 8 && table::sizes(&call.given) && call.n <= 16_384 {
        draws_follow(call);
    }
}

/// As many draws made as stage, rounds and draws left imply on this job, whether or not they pass.
pub fn draws_follow(call: &mut Call) {
    let record = &mut call.memory.record;
    let (size, _) = round(&call.given, call.n, record[1]);
    let made = record[2].wrapping_mul(size).wrapping_add(size.wrapping_sub(record[3]));
    record[4] = before(&call.given, call.n, record[1]).wrapping_add(made);
}

fn damage_sizes(rng: &mut Rng, call: &mut Call) {
    if let Some(word) = call.memory.record.get_mut(6) {
        *word = other_sizes(rng, *word);
    }
}

/// One of the sizes changed, two exchanged, all in the other order, none, or those of any job.
fn other_sizes(rng: &mut Rng, word: u64) -> u64 {
    let mut sizes = [48, 32, 16, 0].map(|low| (word >> low) as u16);
    let any = rng.word() as u16;
    let size = &mut sizes[rng.below(4)];
    match rng.below(8) {
        0 => *size = size.wrapping_add(1),
        1 => *size = size.wrapping_sub(1),
        2 => *size = rng.pick(&[0, u16::MAX, any]),
        3 => sizes.swap(0, 1),
        4 => sizes.swap(2, 3),
        5 => sizes.reverse(),
        6 => return rng.pick(&[0, u64::MAX]),
        _ => return sizes_word([rng.among(1, 16), rng.among(1, 16), rng.among(1, 1024), rng.among(1, 16_384)]),
    }
    sizes_word(sizes.map(usize::from))
}

/// An entry at the limit or far past it.
fn entry(rng: &mut Rng, entries: &mut [u32], limit: usize) {
    if !entries.is_empty() {
        let place = rng.below(entries.len());
        let right = entries[place];
        let edge = limit as u32;
        entries[place] =
            rng.pick(&[edge, edge.wrapping_sub(1), u32::MAX, right.wrapping_add(1), right.wrapping_add(64) % 256]);
    }
}
