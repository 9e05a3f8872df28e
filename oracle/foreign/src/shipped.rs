//! The calls of the library that ships, as Rust has them, on a job and memory of any lengths: none asks anything of its caller. Each
//! answers in a word, a value times 256 and the number.

use crate::{
    dunkafeto_advance, dunkafeto_assign, dunkafeto_hand_in, dunkafeto_result, dunkafeto_start, lend, lend_run,
};

/// What a call only reads; without samples where it has none.
#[derive(Default)]
pub struct Job {
    pub size: usize,
    pub s: usize,
    pub c: usize,
    pub t: usize,
    pub n: usize,
    pub weight: f32,
    pub tiles: Vec<u32>,
    pub colours: Vec<f32>,
    pub counts: Vec<u32>,
    pub samples: Vec<u32>,
}

impl Job {
    /// A tile's colours and counts, of a job that is accepted.
    pub fn tile(&self, i: usize) -> (&[f32], &[u32]) {
        let [first, size] = [self.tiles[2 * i] as usize, self.tiles[2 * i + 1] as usize];
        (&self.colours[3 * first..][..3 * size], &self.counts[first..][..size])
    }
}

/// What a run writes.
#[derive(Clone)]
pub struct Memory {
    pub order: Vec<u32>,
    pub hints: Vec<u32>,
    pub palette: Vec<f32>,
    pub least: Vec<f32>,
    pub record: [u64; 7],
}

/// What a word says: the number, the index of what is refused, the draws of what is done.
pub fn said(word: u64) -> (u32, usize, u64) {
    let (number, value) = ((word & 255) as u32, word >> 8);
    if number == 0 { (0, 0, value) } else { (number, value as usize, 0) }
}

pub fn start(job: &Job, memory: &mut Memory, seed: u64) -> u64 {
    unsafe { lend_run!(dunkafeto_start, job, job, memory, mut / mut, [seed]) }
}

pub fn advance(job: &Job, memory: &mut Memory, allotment: u64) -> u64 {
    unsafe { lend_run!(dunkafeto_advance, job, job, memory, mut / mut, [], allotment) }
}

pub fn hand_in(job: &Job, memory: &mut Memory, reduced: &[f32]) -> u64 {
    unsafe { lend_run!(dunkafeto_hand_in, job, job, memory, mut / ref, [], ref reduced) }
}

pub fn result(job: &Job, memory: &Memory, out: &mut [f32]) -> u64 {
    unsafe { lend_run!(dunkafeto_result, job, job, memory, ref / ref, [], mut out) }
}

pub fn assign(job: &Job, palette: &[f32], hints: &mut [u32], out: &mut [u32]) -> u64 {
    unsafe { lend!(dunkafeto_assign(..job, ref palette, mut hints, mut out)) }
}
