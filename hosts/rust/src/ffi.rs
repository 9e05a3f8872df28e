//! The library's five calls, made with what a job and a run's memory hold: the only unsafe code of the crate beside their declaration.
//!
//! Each call checks all that it is lent and answers every input, so a caller owes only what Rust's references already
//! promise: each pointer has as many elements behind it as the length says, and what is written is borrowed alone.

use crate::exports::{dunkafeto_advance, dunkafeto_assign, dunkafeto_hand_in, dunkafeto_result, dunkafeto_start};
use crate::job::{Colour, Job, Sample, Tile};
use crate::memory::Memory;
use crate::refusal::Refusal;

// A tile and a sample are two numbers each in the calls, a colour three.
const _: () = assert!(size_of::<Tile>() == 8 && align_of::<Tile>() == align_of::<u32>());
const _: () = assert!(size_of::<Sample>() == 8 && align_of::<Sample>() == align_of::<u32>());
const _: () = assert!(size_of::<Colour>() == 12 && align_of::<Colour>() == align_of::<f32>());

/// The draws, or why the call was refused: an answer is a value times 256 and the number, and the value is the draws where the
/// number is 0, an index where it is not. `palette` is how many palette colours that index counts among those of the job.
fn told(answer: u64, job: &Job, palette: usize) -> Result<u64, Refusal> {
    let (number, value) = ((answer & 255) as u8, answer >> 8);
    Refusal::told(number, value as usize, job, palette).map_or(Ok(value), Err)
}

/// Calls a function of a run's with the job and the memory, which `$pointer` lends, and what is its own: `$first` after the
/// weight, `$own` at the end.
macro_rules! with_run {
    ($call:ident, $job:ident, $memory:ident, $pointer:ident / $sometimes:ident, [$($first:expr),*] $(, $own:expr)*) => {{
        let answer = unsafe {
            $call(
                $job.tile_size,
                $job.subpalettes,
                $job.colours_each,
                $job.tiles.len(),
                $job.samples.len(),
                $job.weight,
                $($first,)*
                $job.tiles.as_ptr().cast(),
                2 * $job.tiles.len(),
                $job.colours.as_ptr().cast(),
                3 * $job.colours.len(),
                $job.counts.as_ptr(),
                $job.counts.len(),
                $job.samples.as_ptr().cast(),
                2 * $job.samples.len(),
                $memory.order.$sometimes(),
                $memory.order.len(),
                $memory.hints.$pointer(),
                $memory.hints.len(),
                $memory.palette.$pointer().cast(),
                3 * $memory.palette.len(),
                $memory.least.$sometimes().cast(),
                3 * $memory.least.len(),
                $memory.record.$pointer(),
                $memory.record.len(),
                $($own,)*
            )
        };
        told(answer, $job, 0)
    }};
}

pub fn start(job: &Job, memory: &mut Memory) -> Result<u64, Refusal> {
    with_run!(dunkafeto_start, job, memory, as_mut_ptr / as_mut_ptr, [job.seed])
}

pub fn advance(job: &Job, memory: &mut Memory, allotment: u64) -> Result<u64, Refusal> {
    with_run!(dunkafeto_advance, job, memory, as_mut_ptr / as_mut_ptr, [], allotment)
}

/// Order and second palette are only read.
pub fn hand_in(job: &Job, memory: &mut Memory, reduced: &[Colour]) -> Result<u64, Refusal> {
    let (first, numbers) = (reduced.as_ptr().cast(), 3 * reduced.len());
    with_run!(dunkafeto_hand_in, job, memory, as_mut_ptr / as_ptr, [], first, numbers)
}

/// Only `out` is written.
pub fn result(job: &Job, memory: &Memory, out: &mut [Colour]) -> Result<u64, Refusal> {
    let (first, numbers) = (out.as_mut_ptr().cast(), 3 * out.len());
    with_run!(dunkafeto_result, job, memory, as_ptr / as_ptr, [], first, numbers)
}

pub fn assign(job: &Job, palette: &[Colour], hints: &mut [u32], out: &mut [u32]) -> Result<u64, Refusal> {
    let answer = unsafe {
        dunkafeto_assign(
            job.tile_size,
            job.subpalettes,
            job.colours_each,
            job.tiles.len(),
            job.weight,
            job.tiles.as_ptr().cast(),
            2 * job.tiles.len(),
            job.colours.as_ptr().cast(),
            3 * job.colours.len(),
            job.counts.as_ptr(),
            job.counts.len(),
            palette.as_ptr().cast(),
            3 * palette.len(),
            hints.as_mut_ptr(),
            hints.len(),
            out.as_mut_ptr(),
            out.len(),
        )
    };
    told(answer, job, job.palette_len())
}
