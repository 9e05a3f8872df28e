//! The public calls without samples: single fit, `best_two`, assign. Refusals by docs/SCOPE.md's table on damaged copies of good
//! jobs, answers by the Rust, and all lent memory before and after.

use answers::rust;
use terms::jobs::{self, Colours};
use terms::rng::Rng;
use terms::{Palette, Tile};

use super::{JOBS, Kind, in_turn, kind};
use crate::damage;
use crate::lent;
use crate::ours;
use crate::reading::fits::{self, Present};
use crate::table::{self, Given, Refusal};
use crate::tally::Tally;

pub const KINDS: &[Kind] = &[
    kind("single fit", 20_000, 200_000, single_fit).bringing(JOBS),
    kind("public best_two", 20_000, 200_000, best_two).bringing(JOBS),
    kind("assign", 20_000, 200_000, assign).bringing(JOBS),
    kind("fits", 500, 64_000, fits).bringing(JOBS),
    kind("largest jobs", 24, 240, largest).bringing(JOBS),
];

/// A call as a stranger may make it. `out` is assign's.
#[derive(Clone, Debug)]
pub struct Call {
    pub given: Given,
    pub palette: Vec<f32>,
    pub hints: Vec<u32>,
    pub out: Vec<u32>,
}

impl Call {
    pub fn new(rng: &mut Rng, size: usize, palette: &Palette, tiles: &[Tile], weight: f32) -> Self {
        let (s, t) = (palette.len(), tiles.len());
        Call {
            given: Given::new(size, palette, tiles, weight),
            palette: palette.iter().flatten().flatten().copied().collect(),
            hints: jobs::hints(rng, t, s).into_iter().map(|hint| hint as u32).collect(),
            out: (0..t).map(|_| rng.word()).collect(),
        }
    }

    pub fn good(rng: &mut Rng, t: usize) -> Self {
        let (size, colours) = (jobs::tile_size(rng), Colours::any(rng, 2.0));
        let (s, c) = (jobs::sixteen(rng), jobs::sixteen(rng));
        let palette = jobs::palette(rng, s, c, &colours, 2.0);
        let tiles = jobs::tiles(rng, size, t, &colours);
        let weight = jobs::weight(rng);
        Call::new(rng, size, &palette, &tiles, weight)
    }

    fn damaged(mut self, rng: &mut Rng) -> Self {
        for _ in 0..rng.pick(&[0, 1, 1, 2, 3]) {
            match rng.below(10) {
                0 => damage::length(rng, &mut self.hints),
                1 => damage::length(rng, &mut self.out),
                _ => damage::damage(rng, &mut self.given, &mut self.palette),
            }
        }
        self
    }

    /// What the scope says of a call whose own tests of numbers 2 and 3 are given.
    fn refusal(&self, own_sizes: bool, own_lengths: bool) -> Refusal {
        let lengths = self.hints.len() == self.given.t && own_lengths;
        table::plain(&self.given, &self.palette, own_sizes, lengths)
    }

    fn subs(&self) -> Palette {
        table::subs(&self.given, &self.palette)
    }

    /// All floats that are lent, none of them to be written.
    fn floats(&self) -> impl Iterator<Item = &f32> {
        self.given.colours.iter().chain(&self.palette)
    }

    fn lent(&self) -> ours::Job {
        ours::Job::lent(&self.given)
    }

    /// The fits of a call that is accepted, and those among them in which more than one subpalette has the least distance.
    fn count_fits(&self, tally: &mut Tally) {
        let colours = table::colours(&self.palette);
        let (subs, have) = (self.given.s, self.given.c);
        let present = Present { palette: &colours, room: have, subs, have, weight: self.given.weight };
        let full: Vec<Tile> = self.given.tiles().into_iter().filter(|tile| !tile.counts.is_empty()).collect();
        tally.tiles(&full);
        tally.add("fits", full.len() as u64);
        tally.add("tied fits", full.iter().filter(|tile| present.tied(tile)).count() as u64);
    }
}

fn one_tile(rng: &mut Rng) -> Call {
    let t = if rng.once_in(20) { 2 } else { 1 };
    Call::good(rng, t).damaged(rng)
}

fn single_fit(rng: &mut Rng, _: u64, tally: &mut Tally) {
    fitted(&one_tile(rng), tally);
}

/// Gives what the scope says of it.
pub fn fitted(call: &Call, tally: &mut Tally) -> Refusal {
    let mut refusal = call.refusal(call.given.t == 1, true);
    if refusal.number == 0 && call.given.counts.is_empty() {
        refusal = 15.into();
    }
    let mut right = (refusal, (0, 0.0), call.hints.clone(), true);
    if refusal.number == 0 {
        let fit = rust(call.given.weight).best_fit(&call.subs(), &call.given.tiles()[0], &[call.hints[0] as usize])[0];
        right = (refusal, (fit.index, fit.dist), vec![fit.hint as u32], true);
        call.count_fits(tally);
    }
    let (job, palette, mut hints) = (call.lent(), lent::floats(&call.palette), lent::words(&call.hints));
    let (answer, index, dist) = ours::single_fit(&job, &palette, &mut hints);
    let kept = job.untouched() && palette.untouched() && hints.guarded();
    tally.answered("single fit", call.given.size, refusal);
    tally.left(call.floats());
    tally.same((answer, (index, dist), hints.values().to_vec(), kept), right, || format!("{call:?}"));
    refusal
}

fn best_two(rng: &mut Rng, _: u64, tally: &mut Tally) {
    paired(&one_tile(rng), tally);
}

/// Gives what the scope says of it.
pub fn paired(call: &Call, tally: &mut Tally) -> Refusal {
    let refusal = call.refusal(call.given.t == 1, true);
    let mut right = (refusal, ((0, 0.0, 0.0), 0), call.hints.clone(), true);
    if refusal.number == 0 {
        let tile = &call.given.tiles()[0];
        let fit = rust(call.given.weight).best_two(&call.subs(), tile, &[call.hints[0] as usize])[0];
        let next = fits::next_best(&call.subs(), tile, call.given.weight, fit.index);
        right = (refusal, ((fit.index, fit.dist, fit.second), next), vec![fit.hint as u32], true);
        call.count_fits(tally);
    }
    let (job, palette, mut hints) = (call.lent(), lent::floats(&call.palette), lent::words(&call.hints));
    let (answer, two) = ours::public_best_two(&job, &palette, &mut hints);
    let kept = job.untouched() && palette.untouched() && hints.guarded();
    tally.answered("best_two", call.given.size, refusal);
    tally.left(call.floats());
    tally.same((answer, (two.known(), two.next), hints.values().to_vec(), kept), right, || format!("{call:?}"));
    refusal
}

/// Every tile of a job by each of the three calls, each time from another hint.
fn fits(rng: &mut Rng, _: u64, tally: &mut Tally) {
    let job = Call::good(rng, 8);
    let (size, palette, weight) = (job.given.size, job.subs(), job.given.weight);
    for tile in job.given.tiles().iter().filter(|tile| !tile.counts.is_empty()) {
        let alone = std::slice::from_ref(tile);
        fitted(&Call::new(rng, size, &palette, alone, weight), tally);
        paired(&Call::new(rng, size, &palette, alone, weight), tally);
    }
    assigned(&job, tally);
}

fn assign(rng: &mut Rng, _: u64, tally: &mut Tally) {
    let t = rng.among(1, 8);
    assigned(&Call::good(rng, t).damaged(rng), tally);
}

/// At the limits of the sizes: 1,024 and 1,025 tiles; 16,384 and 16,385 tile colours, in tiles of as many as can be; counts of as many
/// as can be.
fn largest(rng: &mut Rng, case: u64, tally: &mut Tally) {
    let (size, colours) = (in_turn(case), Colours::any(rng, 2.0));
    let full = 16_384 / size;
    let (t, each) =
        [(1024, 16), (1025, 0), (full, size), (full + 1, size), (1024, 1), (1024, 0)][case as usize / 2 % 6];
    let mut tiles: Vec<Tile> = (0..t)
        .map(|i| {
            // one tile more than are full has one colour: 16,385 in all
            let n = if i == full && each == size { 1 } else { each };
            let count = if each == 1 { size } else { 1 };
            Tile { colours: colours.many(rng, n, 2.0), counts: vec![count as u32; n] }
        })
        .collect();
    if rng.once_in(2) {
        tiles.reverse();
    }
    let palette = jobs::palette(rng, 16, 2, &colours, 2.0);
    assigned(&Call::new(rng, size, &palette, &tiles, 2.15), tally);
}

/// Gives what the scope says of it.
pub fn assigned(call: &Call, tally: &mut Tally) -> Refusal {
    let refusal = call.refusal(true, call.out.len() == call.given.t);
    let mut right = ((refusal, 0), call.hints.clone(), call.out.clone(), true);
    if refusal.number == 0 {
        let mut hints: Vec<usize> = call.hints.iter().map(|&hint| hint as usize).collect();
        let subs = rust(call.given.weight).assign(&call.subs(), &call.given.tiles(), &mut hints);
        let narrow = |all: Vec<usize>| all.into_iter().map(|x| x as u32).collect();
        right = ((refusal, 0), narrow(hints), narrow(subs), true);
        call.count_fits(tally);
    }
    let (job, palette) = (call.lent(), lent::floats(&call.palette));
    let (mut hints, mut out) = (lent::words(&call.hints), lent::words(&call.out));
    let answer = ours::assign(&job, &palette, &mut hints, &mut out);
    let kept = job.untouched() && palette.untouched() && hints.guarded() && out.guarded();
    tally.answered("assign", call.given.size, refusal);
    tally.left(call.floats());
    tally.same((answer, hints.values().to_vec(), out.values().to_vec(), kept), right, || format!("{call:?}"));
    refusal
}
