//! Edges of the record: its length, and each word on both sides of its rule, in every stage, through the call that belongs to it; the
//! last word through every call that looks at it.

use terms::Job;

use super::runs::{ask, asks, standing};
use super::{job, tiles};
use crate::call::{Ask, Call};
use crate::ours;
use crate::reading::record::{before, round, waits};
use crate::tally::Tally;

pub fn compare(size: usize, tally: &mut Tally) {
    let jobs = [([3, 3], tiles(2, 3), 20), ([2, 2], tiles(1, 1), 10), ([16, 16], tiles(2, 3), 25)];
    for job in jobs.map(|(sizes, tiles, n)| job(size, sizes, tiles, n)) {
        (0..8).for_each(|stage| of_stage(tally, &job, stage));
    }
    without_rounds(size, tally);
    of_lengths(size, tally);
    of_sizes(size, tally);
    started(size, tally);
}

/// What belongs to the stage that a run is in.
pub fn belonging(call: &Call) -> Ask {
    let [_, advance, hand_in, result] = asks(call);
    match call.stage() {
        3 | 5 | 6 => hand_in,
        7 => result,
        _ => advance,
    }
}

/// The record with these words, its draws made as they imply; the call that belongs to the stage gets the number.
fn try_words(tally: &mut Tally, job: &Job, stage: u64, rounds: u64, left: u64, number: u32) {
    let mut call = standing(job, stage);
    let asked = belonging(&call);
    let size = round(&call.given, call.n, stage).0;
    let made = rounds.wrapping_mul(size).wrapping_add(size.wrapping_sub(left));
    call.memory.record[2..5].copy_from_slice(&[rounds, left, before(&call.given, call.n, stage).wrapping_add(made)]);
    ask(tally, &format!("stage {stage}, rounds {rounds}, left {left}"), &call, &asked, number);
}

/// One word of a good record replaced.
fn try_word(tally: &mut Tally, job: &Job, stage: u64, word: usize, value: u64, number: u32) {
    let mut call = standing(job, stage);
    let asked = belonging(&call);
    call.memory.record[word] = value;
    ask(tally, &format!("stage {stage}, word {word} is {value:x}"), &call, &asked, number);
}

fn of_stage(tally: &mut Tally, job: &Job, stage: u64) {
    let good = standing(job, stage);
    let (size, rounds) = round(&good.given, good.n, stage);
    if waits(stage) {
        let tried = [(0, 0, 0), (1, 0, 10), (0, 1, 10), (u64::MAX, 0, 10), (0, u64::MAX, 10)];
        tried.into_iter().for_each(|(rounds, left, number)| try_words(tally, job, stage, rounds, left, number));
    } else {
        let last = rounds - 1;
        let tried = [(0, size, 0), (last, 1, 0), (rounds, size, 10), (last, 0, 10), (last, size + 1, 10)];
        tried.into_iter().for_each(|(rounds, left, number)| try_words(tally, job, stage, rounds, left, number));
        try_words(tally, job, stage, u64::MAX, size, 10);
        try_words(tally, job, stage, 0, u64::MAX, 10);
    }
    [0, 1, 1 << 63, u64::MAX].into_iter().for_each(|value| try_word(tally, job, stage, 0, value, 0));
    [8, 1 << 32, u64::MAX].into_iter().for_each(|value| try_word(tally, job, stage, 1, value, 10));
    let made = good.memory.record[4];
    [made + 1, made.wrapping_sub(1), made + (1 << 32)]
        .into_iter()
        .for_each(|value| try_word(tally, job, stage, 4, value, 10));
    for (error, in_replacing) in [(0, 0), (0x7f7f_ffff, 0), (0x7f80_0000, 10), (0x8000_0000, 10), (1 << 32, 10)] {
        let number = match (stage, error) {
            (2, _) => in_replacing,
            (_, 0) => 0,
            _ => 10,
        };
        try_word(tally, job, stage, 5, error, number);
    }
}

/// Where a stage has no round, or a round no draw, it has no record that passes.
fn without_rounds(size: usize, tally: &mut Tally) {
    let nothing_to_draw = job(size, [2, 2], tiles(2, 3), 9);
    for stage in [0, 1, 2, 4] {
        try_words(tally, &nothing_to_draw, stage, 0, 0, 10);
        try_words(tally, &nothing_to_draw, stage, 0, 1, 10);
    }
    [3, 5, 6, 7].into_iter().for_each(|stage| try_words(tally, &nothing_to_draw, stage, 0, 0, 0));
    try_words(tally, &job(size, [1, 2], tiles(2, 3), 20), 0, 0, 2, 10);
    try_words(tally, &job(size, [2, 1], tiles(2, 3), 20), 1, 0, 2, 10);
}

/// Six words, as records had before they held sizes, and any other number but seven.
fn of_lengths(size: usize, tally: &mut Tally) {
    let job = job(size, [3, 2], tiles(4, 3), 20);
    for (stage, words) in (0..8).flat_map(|stage| [0, 1, 5, 6, 8, 14].map(|words| (stage, words))) {
        let mut call = standing(&job, stage);
        call.memory.record.resize(words, 0);
        asks(&call).iter().for_each(|asked| ask(tally, &format!("a record of {words} words"), &call, asked, 3));
    }
}

/// The last word of a job with S 3, C 2, T 4 and n 20, whatever its tile size.
const SIZES: u64 = 0x0003_0002_0004_0014;

/// Every bit changed; each size with one more, one less, none and all ones; S and C exchanged, T and n, both halves, all four.
fn other_sizes() -> Vec<u64> {
    let bits = (0..64).map(|bit| SIZES ^ 1 << bit);
    let each = [0, 16, 32, 48].into_iter().flat_map(|low| {
        let (one, ones) = (1 << low, 0xffff << low);
        [SIZES + one, SIZES - one, SIZES & !ones, SIZES | ones]
    });
    let exchanged = [0x0002_0003_0004_0014, 0x0003_0002_0014_0004, 0x0004_0014_0003_0002, 0x0014_0004_0002_0003];
    bits.chain(each).chain(exchanged).chain([0, u64::MAX]).collect()
}

/// The word is looked at in every stage by every call but start, after the samples and before the words ahead of it.
fn of_sizes(size: usize, tally: &mut Tally) {
    let job = job(size, [3, 2], tiles(4, 3), 20);
    for stage in 0..8 {
        let good = standing(&job, stage);
        ask(tally, "the job's sizes", &good, &belonging(&good), 0);
        let mut sized = |what: &str, number: u32, edit: &dyn Fn(&mut Call)| {
            let mut call = good.clone();
            edit(&mut call);
            let [_, others @ ..] = asks(&call);
            others.iter().for_each(|asked| ask(tally, &format!("stage {stage}, {what}"), &call, asked, number));
        };
        for sizes in other_sizes() {
            sized(&format!("sizes {sizes:x}"), 20, &|call| call.memory.record[6] = sizes);
        }
        for word in 1..6 {
            sized(&format!("no sizes, word {word} wrong"), 20, &|call| {
                (call.memory.record[6], call.memory.record[word]) = (0, u64::MAX);
            });
        }
        sized("no sizes, a sample wrong", 8, &|call| (call.memory.record[6], call.samples[0]) = (0, 4));
    }
}

/// A start writes the word, whatever stood there.
fn started(size: usize, tally: &mut Tally) {
    let least = (job(size, [1, 1], tiles(1, 1), 1), 0x0001_0001_0001_0001);
    let most = (job(size, [16, 16], tiles(1024, 1), 16_384), 0x0010_0010_0400_4000);
    for (job, right) in [(job(size, [3, 2], tiles(4, 3), 20), SIZES), least, most] {
        for found in [right, 0, u64::MAX, right ^ 1] {
            let mut call = standing(&job, 0);
            call.memory.record[6] = found;
            let start = Ask::Start(9);
            ask(tally, &format!("sizes {found:x} before a start"), &call, &start, 0);
            let written = ours::answer(&call, &start).memory.record[6];
            tally.same(written, right, || format!("the sizes that a start writes over {found:x}"));
        }
    }
}
