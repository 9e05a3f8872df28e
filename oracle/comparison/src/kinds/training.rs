//! What training does: the error of a palette, growing, replacing, refinement, and draws.

use answers::{probed, rust};
use terms::jobs::{self, Colours};
use terms::rng::Rng;
use terms::{Held, Palette, Tile};

use super::seeding::placed;
use super::{Kind, TILES, kind};
use crate::ours::{self, Flat, Job};
use crate::table::Given;
use crate::tally::Tally;

pub const KINDS: &[Kind] = &[
    kind("mse", 5_000, 50_000, mse).bringing(TILES),
    kind("grow", 5_000, 50_000, grow).bringing(TILES),
    kind("replace_weakest", 5_000, 50_000, replace_weakest).bringing(TILES),
    kind("refine", 5_000, 50_000, refine).bringing(TILES),
    kind("draws", 300, 3_000, draws).bringing(TILES),
];

/// Tiles with hints, and a palette that a run may hold, in room for more.
struct Case {
    size: usize,
    palette: Palette,
    tiles: Vec<Tile>,
    weight: f32,
    hints: Vec<usize>,
    flat: Flat,
}

impl Case {
    fn any(rng: &mut Rng, tally: &mut Tally) -> Self {
        let (size, colours) = (jobs::tile_size(rng), Colours::any(rng, 2.0));
        let limit = rng.pick(&[2.0, 4.0]);
        let (s, room, t) = (jobs::sixteen(rng), jobs::sixteen(rng), rng.pick(&[1, 2, 5, 20, 60]));
        let have = if rng.once_in(2) { room } else { rng.among(1, room) };
        let palette = jobs::palette(rng, s, have, &colours, limit);
        let mut tiles = jobs::tiles(rng, size, t, &colours);
        if rng.once_in(30) {
            tiles.fill(Tile::default());
        }
        tally.tiles(&tiles);
        let flat = placed(rng, &palette, room, s);
        Case { size, palette, tiles, weight: jobs::weight(rng), hints: jobs::hints(rng, t, s), flat }
    }

    /// With every place in use.
    fn full(rng: &mut Rng, tally: &mut Tally) -> Self {
        let mut case = Case::any(rng, tally);
        case.flat = Flat::new(&case.palette, case.palette[0].len());
        case
    }

    /// Our change of the palette beside the Rust's, and the hints that both leave.
    fn compare(
        mut self,
        ours: impl FnOnce(&Job, &mut Flat, &mut [u32]),
        rusts: impl FnOnce(&Palette, &[Tile], &mut [usize]) -> Palette,
        tally: &mut Tally,
    ) {
        let shown = self.shown();
        let (mut lent, mut hints, mut right) = (self.narrow_hints(), self.hints.clone(), self.flat.clone());
        ours(&self.job(), &mut self.flat, &mut lent);
        let after = rusts(&self.palette, &self.tiles, &mut hints);
        let left: Vec<usize> = lent.into_iter().map(|hint| hint as usize).collect();
        right.put(&after);
        tally.same((self.flat.numbers, left), (right.numbers, hints), || shown);
    }

    /// The job, as one of so many subpalettes of so many colours as there is room for.
    fn job(&self) -> Job {
        let mut given = Given::new(self.size, &self.palette, &self.tiles, self.weight);
        given.c = self.flat.room;
        Job::lent(&given)
    }

    fn narrow_hints(&self) -> Vec<u32> {
        self.hints.iter().map(|&hint| hint as u32).collect()
    }

    fn shown(&self) -> String {
        format!("hints {:?}, weight {:?}, {:?}, {:?}", self.hints, self.weight, self.tiles, self.palette)
    }
}

fn mse(rng: &mut Rng, _: u64, tally: &mut Tally) {
    let case = Case::any(rng, tally);
    let (mut lent, mut hints) = (case.narrow_hints(), case.hints.clone());
    let ours = ours::mse(&case.job(), &case.flat, &mut lent);
    let rusts = rust(case.weight).mse(&case.palette, &case.tiles, &mut hints);
    let left: Vec<usize> = lent.into_iter().map(|hint| hint as usize).collect();
    tally.same((ours, left), (rusts, hints), || case.shown());
}

/// Where there is room for one colour more.
fn grow(rng: &mut Rng, _: u64, tally: &mut Tally) {
    let mut case = Case::any(rng, tally);
    if case.flat.have == case.flat.room {
        case.flat = placed(rng, &case.palette, case.flat.have + 1, case.palette.len());
    }
    if case.flat.room > 16 {
        return;
    }
    let weight = case.weight;
    case.compare(ours::grow, |palette, tiles, hints| probed(weight).grow(palette, tiles, hints), tally);
}

fn replace_weakest(rng: &mut Rng, _: u64, tally: &mut Tally) {
    let case = Case::full(rng, tally);
    let weight = case.weight;
    case.compare(
        ours::replace_weakest,
        |palette, tiles, hints| probed(weight).replace_weakest(palette, tiles, hints),
        tally,
    );
}

fn refine(rng: &mut Rng, _: u64, tally: &mut Tally) {
    let case = Case::full(rng, tally);
    let weight = case.weight;
    case.compare(ours::refine, |palette, tiles, hints| probed(weight).refine(palette, tiles, hints), tally);
}

/// The draws of a run's final stage, one by one, with the order and the generator.
fn draws(rng: &mut Rng, _: u64, tally: &mut Tally) {
    let job = jobs::job(rng, 60);
    let (s, c, n) = (job.s, job.c, job.samples.len());
    let (colours, seed) = (Colours::any(rng, 2.0), rng.bits());
    let palette = jobs::palette(rng, s, c, &colours, 4.0);
    let hints = jobs::hints(rng, job.tiles.len(), s);
    let b = n as u64 / 10;
    if b == 0 {
        return;
    }
    tally.tiles(&job.tiles);
    let mut cycle = ours::Cycle::new(n, seed);
    let made = (s + c + 8) as u64 * b;
    let held = Held {
        palette: palette.clone(),
        least: Vec::new(),
        hints: hints.clone(),
        order: cycle.order.clone(),
        words: [cycle.state, 4, 0, 10 * b, made, 0],
    };
    cycle.made = made;
    let mut run = probed(job.weight).resume(&job, &held);

    let lent = Job::lent(&Given::new(job.size, &palette, &job.tiles, job.weight));
    let samples: Vec<u32> = job.samples.iter().flat_map(|s| [s.tile as u32, s.place as u32]).collect();
    let (mut flat, mut left) = (Flat::new(&palette, c), hints.iter().map(|&h| h as u32).collect::<Vec<_>>());
    for _ in 0..10 * b - 1 {
        ours::draw(&lent, &samples, &mut cycle, &mut flat, &mut left, 0.5);
        run.advance(1);
        let held = run.held();
        let ours = (flat.numbers.clone(), left.iter().map(|&h| h as usize).collect::<Vec<_>>(), cycle.order.clone());
        let rusts = (Flat::new(&held.palette, c).numbers, held.hints, held.order);
        tally.same((ours, cycle.state), (rusts, held.words[0]), || format!("seed {seed:x}, {job:?}"));
    }
}
