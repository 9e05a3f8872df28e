//! The public calls that no host has, by their forwarders, on whatever a list lends. None asks anything of its caller.

use foreign::ours::Two;
use foreign::shipped::Job;
use foreign::{lend, probe_group, probe_public_best_two, probe_sheet_read, probe_sheet_write, probe_single_fit};

/// The number, and the index that goes with it.
pub type Answer = (u32, usize);

/// The answer, the winner and its distance.
pub fn single_fit(job: &Job, palette: &[f32], hints: &mut [u32]) -> (Answer, usize, f32) {
    let (mut index, mut dist, mut fault) = (0, 0.0, 0);
    let number = unsafe { lend!(probe_single_fit(..job, ref palette, mut hints, &mut index, &mut dist, &mut fault)) };
    ((number, fault), index, dist)
}

/// The answer, the winner, its distance and the second.
pub fn best_two(job: &Job, palette: &[f32], hints: &mut [u32]) -> (Answer, usize, [f32; 2]) {
    let (mut two, mut fault) = (Two { index: 0, dist: 0.0, next: 0, second: 0.0 }, 0);
    let number = unsafe {
        lend!(probe_public_best_two(
            ..job, ref palette, mut hints, &mut two.index, &mut two.dist, &mut two.next, &mut two.second, &mut fault
        ))
    };
    ((number, fault), two.index, [two.dist, two.second])
}

/// The answer, and the bytes that the sheet has.
pub fn sheet_write(job: &Job, palette: &[f32], dst: &mut [u8]) -> (Answer, usize) {
    let (mut written, mut fault) = (0, 0);
    let number = unsafe { lend!(probe_sheet_write(..job, ref palette, mut dst, &mut written, &mut fault)) };
    ((number, fault), written)
}

/// The answer of a reading that is told the job's tile size; its slices and the palette are the room that is filled, its other sizes and
/// its weight become the sheet's.
pub fn sheet_read(bytes: &[u8], job: &mut Job, palette: &mut [f32]) -> Answer {
    let mut fault = 0;
    let number = unsafe {
        lend!(probe_sheet_read(
            job.size, ref bytes, mut job.tiles, mut job.colours, mut job.counts, mut palette,
            &mut job.s, &mut job.c, &mut job.t, &mut job.weight, &mut fault
        ))
    };
    (number, fault)
}

/// The room that grouping fills.
pub struct Entries {
    pub bytes: Vec<u8>,
    pub oklab: Vec<f32>,
    pub counts: Vec<u32>,
    pub index: Vec<u32>,
}

/// The answer, and how many entries were written; no colour is the zero.
pub fn group(size: usize, pixels: &[u8], oklab: &[f32], room: &mut Entries) -> (Answer, usize) {
    let (mut entries, mut fault) = (0, 0);
    let number = unsafe {
        lend!(probe_group(
            size, room.index.len(), ref pixels, ref oklab, false, 0, 0, 0,
            mut room.bytes, mut room.oklab, mut room.counts, mut room.index, &mut entries, &mut fault
        ))
    };
    ((number, fault), entries)
}
