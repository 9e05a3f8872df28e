//! Our functions on the memory that a run is lent.

use foreign::shipped::{self, Memory};
use foreign::{lend, probe_best_fit, probe_best_two, probe_draw, probe_mse, probe_nearest};
use terms::{Colour, Job};

/// A job as it is lent.
pub struct Lent(shipped::Job);

/// In place: nothing is allocated while time is taken.
pub fn copy(from: &Memory, to: &mut Memory) {
    to.order.copy_from_slice(&from.order);
    to.hints.copy_from_slice(&from.hints);
    to.palette.copy_from_slice(&from.palette);
    to.least.copy_from_slice(&from.least);
    to.record = from.record;
}

impl Lent {
    pub fn new(job: &Job) -> Self {
        let mut first = 0;
        let pair = |tile: &terms::Tile| {
            let at = first;
            first += tile.counts.len();
            [at as u32, tile.counts.len() as u32]
        };
        Lent(shipped::Job {
            size: job.size,
            s: job.s,
            c: job.c,
            t: job.tiles.len(),
            n: job.samples.len(),
            weight: job.weight,
            tiles: job.tiles.iter().flat_map(pair).collect(),
            colours: job.tiles.iter().flat_map(|tile| tile.colours.as_flattened()).copied().collect(),
            counts: job.tiles.iter().flat_map(|tile| &tile.counts).copied().collect(),
            samples: job.samples.iter().flat_map(|s| [s.tile as u32, s.place as u32]).collect(),
        })
    }

    pub fn memory(&self) -> Memory {
        let Lent(job) = self;
        let (palette, record) = (vec![0.0; 3 * job.s * job.c], Default::default());
        Memory { order: vec![0; job.n], hints: vec![0; job.t], least: palette.clone(), palette, record }
    }

    /// Of a subpalette's colours.
    pub fn nearest(&self, part: &[f32], q: Colour, dist: &mut f32) -> usize {
        unsafe { lend!(probe_nearest(ref part, q[0], q[1], q[2], self.0.weight, dist)) }
    }

    pub fn best_fit(&self, memory: &mut Memory, tile: usize, dist: &mut f32) -> usize {
        let Lent(job) = self;
        let (colours, counts) = job.tile(tile);
        unsafe {
            lend!(probe_best_fit(
                ref memory.palette, job.c, job.c, job.s,
                ref colours, ref counts, job.weight, mut memory.hints, tile, dist
            ))
        }
    }

    pub fn best_two(&self, memory: &mut Memory, tile: usize, dist: &mut f32, second: &mut f32) -> usize {
        let Lent(job) = self;
        let ((colours, counts), mut next) = (job.tile(tile), 0);
        unsafe {
            lend!(probe_best_two(
                ref memory.palette, job.c, job.c, job.s,
                ref colours, ref counts, job.weight, mut memory.hints, tile, dist, &mut next, second
            ))
        }
    }

    pub fn mse(&self, memory: &mut Memory) -> f32 {
        let Lent(job) = self;
        unsafe { lend!(probe_mse(..job, ref memory.palette, job.s, job.c, mut memory.hints)) }
    }

    pub fn draw(&self, memory: &mut Memory, alpha: f32) {
        let Lent(job) = self;
        memory.record[0] = unsafe {
            lend!(probe_draw(
                job.size, job.s, job.c, job.t, job.n, job.weight,
                ref job.tiles, ref job.colours, ref job.counts, ref job.samples,
                memory.record[0], memory.record[4], mut memory.order,
                mut memory.palette, job.s, job.c, mut memory.hints, alpha
            ))
        };
        memory.record[4] += 1;
    }

    pub fn assign(&self, memory: &mut Memory, out: &mut [u32]) {
        accepted(shipped::assign(&self.0, &memory.palette, &mut memory.hints, out));
    }

    pub fn start(&self, memory: &mut Memory, seed: u64) {
        accepted(shipped::start(&self.0, memory, seed));
    }

    pub fn advance(&self, memory: &mut Memory, allotment: u64) {
        accepted(shipped::advance(&self.0, memory, allotment));
    }

    /// Hands in the palette, reduced.
    pub fn hand_in(&self, memory: &mut Memory, reduce: fn(Colour) -> Colour) {
        let reduced: Vec<Colour> = memory.palette.as_chunks().0.iter().map(|&colour| reduce(colour)).collect();
        accepted(shipped::hand_in(&self.0, memory, reduced.as_flattened()));
    }
}

fn accepted(answer: u64) {
    assert_eq!(answer % 256, 0);
}
