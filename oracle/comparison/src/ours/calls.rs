//! The public calls, which take whatever a stranger lends.

use super::said;
use crate::lent::{self, Lent};
use crate::table::{Given, Refusal};
use foreign::ours::Two;
use foreign::{dunkafeto_assign, lend, probe_group, probe_public_best_two, probe_single_fit};

/// What every call with a job is lent.
pub struct Job {
    pub size: usize,
    pub s: usize,
    pub c: usize,
    pub t: usize,
    pub weight: f32,
    pub tiles: Lent<u32>,
    pub colours: Lent<f32>,
    pub counts: Lent<u32>,
}

impl Job {
    pub fn lent(given: &Given) -> Self {
        Job {
            size: given.size,
            s: given.s,
            c: given.c,
            t: given.t,
            weight: given.weight,
            tiles: lent::words(&given.tiles),
            colours: lent::floats(&given.colours),
            counts: lent::words(&given.counts),
        }
    }

    pub fn guarded(&self) -> bool {
        self.tiles.guarded() && self.colours.guarded() && self.counts.guarded()
    }

    pub fn untouched(&self) -> bool {
        self.tiles.untouched() && self.colours.untouched() && self.counts.untouched()
    }
}

/// The room that grouping fills.
pub struct Entries {
    pub bytes: Lent<u8>,
    pub oklab: Lent<f32>,
    pub counts: Lent<u32>,
    pub index: Lent<u32>,
}

/// The refusal, and how many entries were written.
pub fn group(
    size: usize,
    p: usize,
    pixels: &Lent<u8>,
    oklab: &Lent<f32>,
    zero: Option<[u8; 3]>,
    room: &mut Entries,
) -> (Refusal, usize) {
    let [r, g, b] = zero.unwrap_or_default();
    let (mut entries, mut index) = (0, 0);
    let number = unsafe {
        lend!(probe_group(
            size, p, ref pixels, ref oklab, zero.is_some(), r, g, b,
            mut room.bytes, mut room.oklab, mut room.counts, mut room.index, &mut entries, &mut index
        ))
    };
    (Refusal { number, index }, entries)
}

/// The refusal, the winner and its distance; both stay 0 on a refusal.
pub fn single_fit(job: &Job, palette: &Lent<f32>, hints: &mut Lent<u32>) -> (Refusal, usize, f32) {
    let (mut winner, mut dist, mut index) = (0, 0.0, 0);
    let number = unsafe { lend!(probe_single_fit(..job, ref palette, mut hints, &mut winner, &mut dist, &mut index)) };
    (Refusal { number, index }, winner, dist)
}

/// The refusal, the winner, its distance, the runner-up and the second; all stay 0 on a refusal.
pub fn public_best_two(job: &Job, palette: &Lent<f32>, hints: &mut Lent<u32>) -> (Refusal, Two) {
    let (mut two, mut index) = (Two { index: 0, dist: 0.0, next: 0, second: 0.0 }, 0);
    let number = unsafe {
        lend!(probe_public_best_two(
            ..job, ref palette, mut hints, &mut two.index, &mut two.dist, &mut two.next, &mut two.second, &mut index
        ))
    };
    (Refusal { number, index }, two)
}

/// The refusal, and the draws, of which it makes none.
pub fn assign(job: &Job, palette: &Lent<f32>, hints: &mut Lent<u32>, out: &mut Lent<u32>) -> (Refusal, u64) {
    said(unsafe { lend!(dunkafeto_assign(..job, ref palette, mut hints, mut out)) })
}
