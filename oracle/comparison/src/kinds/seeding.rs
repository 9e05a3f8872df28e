//! Seeding: its first colour, its choice of the subpalette to split, and its rounds, draws included.

use answers::probed;
use terms::jobs::{self, Colours};
use terms::rng::Rng;
use terms::{Colour, Edit, Palette, Tile};

use super::{Kind, TILES, kind};
use crate::ours::{self, Cycle, Flat, Job};
use crate::table::Given;
use crate::tally::Tally;

pub const KINDS: &[Kind] = &[
    kind("seed mean", 5_000, 50_000, mean).bringing(TILES),
    kind("seed choice", 10_000, 100_000, choice).bringing(TILES),
    kind("seeding", 500, 5_000, seeding).bringing(TILES),
];

/// The palette in a job's room; other numbers stand where none is present, to be left as they are.
pub fn placed(rng: &mut Rng, palette: &Palette, c: usize, s: usize) -> Flat {
    let mut flat = Flat::with_places(palette, c, s);
    let others = Colours::any(rng, 4.0);
    for number in flat.numbers.iter_mut().filter(|number| number.is_nan()) {
        *number = others.one(rng, 4.0)[0];
    }
    flat
}

fn lent(job: &terms::Job) -> Job {
    Job::lent(&Given { s: job.s, c: job.c, ..Given::new(job.size, &vec![vec![[0.0; 3]]], &job.tiles, job.weight) })
}

fn narrow(hints: &[usize]) -> Vec<u32> {
    hints.iter().map(|&hint| hint as u32).collect()
}

fn pairs(job: &terms::Job) -> Vec<u32> {
    job.samples.iter().flat_map(|s| [s.tile as u32, s.place as u32]).collect()
}

/// Beside the Rust's seeding of one subpalette, which has no round.
fn mean(rng: &mut Rng, _: u64, tally: &mut Tally) {
    let mut job = jobs::job(rng, 1_000);
    let first = Colours::any(rng, 4.0).one(rng, 4.0);
    let mut flat = placed(rng, &vec![vec![first]], job.c, job.s);
    let mut after = flat.numbers.clone();
    let lent = lent(&job);
    tally.tiles(&job.tiles);
    ours::seed(&lent, &pairs(&job), &mut flat);

    let hints = jobs::hints(rng, job.tiles.len(), job.s);
    job.s = 1;
    let seeded = probed(job.weight).seed(&job, &hints, rng.bits());
    after[..3].copy_from_slice(&seeded.palette[0][0]);
    tally.same((flat.numbers, hints, lent.untouched()), (after, seeded.hints, true), || format!("{job:?}"));
}

/// Makes the second half of the subpalettes the first one's mirror images, and has each tile's beside it somewhere: equal
/// sums, but for the order in which they are rounded.
fn mirror(rng: &mut Rng, palette: &mut Palette, tiles: &mut Vec<Tile>) {
    let image = |colours: &Vec<Colour>| colours.iter().map(|colour| colour.map(|x| -x)).collect();
    let half = palette.len() / 2;
    for i in 0..half {
        palette[half + i] = image(&palette[i]);
    }
    let images: Vec<Tile> =
        tiles.iter().map(|tile| Tile { colours: image(&tile.colours), counts: tile.counts.clone() }).collect();
    for tile in images {
        tiles.insert(rng.below(tiles.len() + 1), tile);
    }
    jobs::empty_the_rest(tiles);
}

/// Among some or all of a job's subpalettes.
fn choice(rng: &mut Rng, _: u64, tally: &mut Tally) {
    let (size, colours) = (jobs::tile_size(rng), Colours::any(rng, 2.0));
    let (s, c, t) = (jobs::sixteen(rng), jobs::sixteen(rng), rng.pick(&[1, 2, 5, 20, 60]));
    let subs = if rng.once_in(2) { s } else { rng.among(1, s) };
    let limit = rng.pick(&[2.0, 4.0]);
    let mut palette = jobs::palette(rng, subs, 1, &colours, limit);
    let mut tiles = jobs::tiles(rng, size, t, &colours);
    if rng.once_in(30) {
        tiles.fill(Tile::default());
    }
    if rng.once_in(3) {
        mirror(rng, &mut palette, &mut tiles);
    }
    let job = terms::Job { size, s, c, weight: jobs::weight(rng), tiles, samples: Vec::new() };
    let mut hints = jobs::hints(rng, job.tiles.len(), s);
    let shown = format!("hints {hints:?}, {job:?}, {palette:?}");

    let flat = placed(rng, &palette, c, s);
    let (before, mut left) = (flat.numbers.clone(), narrow(&hints));
    let lent = lent(&job);
    tally.tiles(&job.tiles);
    let ours = ours::worst(&lent, &flat, &mut left);
    let rusts = probed(job.weight).worst(&palette, &job.tiles, &mut hints);
    tally.same((ours, left, flat.numbers, lent.untouched()), (rusts, narrow(&hints), before, true), || shown);
}

/// After each round, beside the Rust's seeding of as many subpalettes; the order of draws and the generator too.
fn seeding(rng: &mut Rng, _: u64, tally: &mut Tally) {
    let mut job = jobs::job(rng, 300);
    let (s, c, n, seed) = (job.s, job.c, job.samples.len(), rng.bits());
    let hints = jobs::hints(rng, job.tiles.len(), s);
    let (lent, samples) = (lent(&job), pairs(&job));
    tally.tiles(&job.tiles);
    let (mut cycle, mut left, mut split) = (Cycle::new(n, seed), narrow(&hints), 0);
    let mut flat = placed(rng, &vec![vec![[0.0; 3]]], c, s);
    let mut after = flat.clone();
    ours::seed(&lent, &samples, &mut flat);
    for subs in 1..=s {
        if subs > 1 {
            flat.edit(Edit::DuplicatePalette(split));
            flat.subs = subs;
            for _ in 0..n / 10 {
                ours::draw(&lent, &samples, &mut cycle, &mut flat, &mut left, 0.3);
            }
            split = ours::worst(&lent, &flat, &mut left);
        }
        job.s = subs;
        let seeded = probed(job.weight).seed(&job, &hints, seed);
        after.put(&seeded.palette);
        tally.same(
            (flat.numbers.clone(), left.clone(), cycle.order.clone(), cycle.state),
            (after.numbers.clone(), narrow(&seeded.hints), seeded.order, seeded.state),
            || format!("seed {seed:x}, hints {hints:?}, {job:?}"),
        );
    }
}
