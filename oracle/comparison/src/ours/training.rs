//! What training does: between draws, a draw, seeding.

use super::{Cycle, Flat, Job};
use foreign::{lend, probe_draw, probe_grow, probe_mse, probe_refine, probe_replace_weakest, probe_seed, probe_worst};

/// Of a job that is accepted, and a palette within 4.
pub fn mse(job: &Job, palette: &Flat, hints: &mut [u32]) -> f32 {
    unsafe { lend!(probe_mse(..job, ref palette.numbers, palette.subs, palette.have, mut hints)) }
}

/// One colour more in each subpalette, where there is room.
pub fn grow(job: &Job, palette: &mut Flat, hints: &mut [u32]) {
    unsafe { lend!(probe_grow(..job, mut palette.numbers, palette.have, mut hints)) }
}

/// Of a palette whose places are all in use.
pub fn replace_weakest(job: &Job, palette: &mut Flat, hints: &mut [u32]) {
    unsafe { lend!(probe_replace_weakest(..job, mut palette.numbers, mut hints)) }
}

/// Of a palette whose places are all in use.
pub fn refine(job: &Job, palette: &mut Flat, hints: &mut [u32]) {
    unsafe { lend!(probe_refine(..job, mut palette.numbers, mut hints)) }
}

/// The next draw of the cycle, by alpha.
pub fn draw(job: &Job, samples: &[u32], cycle: &mut Cycle, palette: &mut Flat, hints: &mut [u32], alpha: f32) {
    cycle.state = unsafe {
        lend!(probe_draw(
            job.size, job.s, job.c, job.t, samples.len() / 2, job.weight,
            ref job.tiles, ref job.colours, ref job.counts, ref samples,
            cycle.state, cycle.made, mut cycle.order, mut palette.numbers, palette.subs, palette.have, mut hints, alpha
        ))
    };
    cycle.made += 1;
}

/// The mean of the samples, at the palette's first place.
pub fn seed(job: &Job, samples: &[u32], palette: &mut Flat) {
    unsafe {
        lend!(probe_seed(
            job.size, job.s, job.c, job.t, samples.len() / 2, job.weight,
            ref job.tiles, ref job.colours, ref job.counts, ref samples, mut palette.numbers
        ))
    }
}

/// The subpalette to split next, of those present with one colour each.
pub fn worst(job: &Job, palette: &Flat, hints: &mut [u32]) -> usize {
    unsafe { lend!(probe_worst(..job, ref palette.numbers, palette.subs, mut hints)) }
}
