//! The sheet's reader and writer, which take whatever a stranger lends.

use super::Job;
use crate::lent::Lent;
use crate::table::Refusal;
use foreign::{lend, probe_sheet_read, probe_sheet_write};

/// The refusal of a reading that is told the job's tile size; its other sizes and its weight become the sheet's, its slices and the palette
/// are filled.
pub fn sheet_read(bytes: &Lent<u8>, job: &mut Job, palette: &mut Lent<f32>) -> Refusal {
    let mut index = 0;
    let number = unsafe {
        lend!(probe_sheet_read(
            job.size, ref bytes, mut job.tiles, mut job.colours, mut job.counts, mut palette,
            &mut job.s, &mut job.c, &mut job.t, &mut job.weight, &mut index
        ))
    };
    Refusal { number, index }
}

/// The refusal, and the bytes that the sheet has; 0 on a refusal.
pub fn sheet_write(job: &Job, palette: &Lent<f32>, dst: &mut Lent<u8>) -> (Refusal, usize) {
    let (mut written, mut index) = (0, 0);
    let number = unsafe { lend!(probe_sheet_write(..job, ref palette, mut dst, &mut written, &mut index)) };
    (Refusal { number, index }, written)
}
