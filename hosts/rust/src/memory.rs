//! The memory of a run, which is lent to each of its calls.

use crate::job::{Colour, Job, MOST_SAMPLES};

/// Words of a run's record.
pub(crate) const WORDS: usize = 7;

/// What a run holds between two calls, and all that a file needs to keep of it beside the job.
///
/// Anyone may make or change one; [`Trainer::resume`](crate::Trainer::resume) has the library check it.
#[derive(Clone, Debug, PartialEq)]
pub struct Memory {
    /// The order of the samples: n numbers below n.
    pub order: Vec<u32>,
    /// For each tile the subpalette that is tried first: any number.
    pub hints: Vec<u32>,
    /// The working colours, subpalette by subpalette: S·C.
    pub palette: Vec<Colour>,
    /// The palette of least error while stage 2 lasts: S·C.
    pub least: Vec<Colour>,
    /// Generator state, stage, rounds finished in it, draws left in the round, draws made, bits of the least error, and the
    /// sizes of the job, 16 bits each: S·2^48 + C·2^32 + T·2^16 + n.
    pub record: [u64; WORDS],
}

impl Memory {
    /// Memory of the lengths that a job implies, all zeros. A job that is refused for its sizes gets none.
    pub(crate) fn of(job: &Job, hints: Vec<u32>) -> Self {
        let palette = vec![[0.0; 3]; job.palette_len()];
        let n = if job.samples.len() > MOST_SAMPLES { 0 } else { job.samples.len() };
        Memory { order: vec![0; n], hints, least: palette.clone(), palette, record: [0; WORDS] }
    }
}
