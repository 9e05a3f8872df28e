//! Jobs from a seed: random, clustered and coarse colours, copied subpalettes, empty and single-colour tiles, extremes of
//! the sizes. Everything made here is a job that docs/SCOPE.md accepts.

use super::rng::Rng;
use super::{Colour, Job, Palette, Sample, TILE_SIZES, Tile};

/// The colours of all tiles of a job.
const MOST_TILE_COLOURS: usize = 16_384;

/// How the colours of one case are made. Most give ties between distances.
#[derive(Clone, Debug)]
pub enum Colours {
    /// Anywhere within the limit.
    Random,
    /// As artwork has them: l from 0 to 1, a and b small.
    Artwork,
    /// Near one of a few centres.
    Clustered(Vec<Colour>),
    /// Multiples of a step.
    Coarse(f32),
    /// One of a few colours.
    Few(Vec<Colour>),
    /// Components at the edges: the limit, its neighbours, zeros of both signs, the smallest numbers.
    Edges,
}

impl Colours {
    pub fn any(rng: &mut Rng, limit: f32) -> Self {
        match rng.below(8) {
            0 => Colours::Random,
            1 => Colours::Artwork,
            2 => Colours::Clustered((0..rng.among(1, 6)).map(|_| Colours::Artwork.one(rng, limit)).collect()),
            3 => Colours::Coarse(0.5),
            4 => Colours::Coarse(1.0),
            5 => Colours::Coarse(0.125),
            6 => Colours::Few((0..rng.among(1, 5)).map(|_| Colours::Coarse(0.25).one(rng, limit)).collect()),
            _ => Colours::Edges,
        }
    }

    pub fn one(&self, rng: &mut Rng, limit: f32) -> Colour {
        match self {
            Colours::Random => [0; 3].map(|_| rng.signed(limit)),
            Colours::Artwork => [rng.unit(), rng.signed(0.4), rng.signed(0.4)],
            Colours::Clustered(centres) => rng.pick(centres).map(|x| (x + rng.signed(0.02)).clamp(-limit, limit)),
            Colours::Coarse(step) => {
                let steps = (limit.min(2.0) / step) as usize;
                [0; 3].map(|_| (rng.among(0, 2 * steps) as f32 - steps as f32) * step)
            }
            Colours::Few(colours) => rng.pick(colours),
            Colours::Edges => [0; 3].map(|_| edge(rng, limit)),
        }
    }

    pub fn many(&self, rng: &mut Rng, n: usize, limit: f32) -> Vec<Colour> {
        (0..n).map(|_| self.one(rng, limit)).collect()
    }
}

/// A component at an edge of what is accepted.
fn edge(rng: &mut Rng, limit: f32) -> f32 {
    let size = match rng.below(8) {
        0 => limit,
        1 => limit.next_down(),
        2 => 0.0,
        3 => f32::from_bits(rng.word() % 4),
        4 => f32::MIN_POSITIVE,
        5 => f32::from_bits(0x3f80_0000 + rng.word() % 3 - 1),
        6 => f32::from_bits(rng.word() % limit.to_bits()),
        _ => 1.0,
    };
    if rng.once_in(2) { -size } else { size }
}

/// A number from 1 to 16, the extremes among them more often than their share.
pub fn sixteen(rng: &mut Rng) -> usize {
    match rng.below(6) {
        0 => 1,
        1 => 2,
        2 => 16,
        _ => rng.among(1, 16),
    }
}

/// The trainer's own weight as often as all others together.
pub fn weight(rng: &mut Rng) -> f32 {
    match rng.below(12) {
        0..6 => 2.15,
        6 => 1.0,
        7 => 16.0,
        8 => f32::from_bits(1 + rng.word() % 3),
        9 => f32::MIN_POSITIVE,
        10 => f32::from_bits(1 + rng.word() % 16f32.to_bits()),
        _ => 16.0 - rng.unit() * 15.9,
    }
}

/// S subpalettes of C colours: made alone, or with subpalettes copied whole, in part, or in another order.
pub fn palette(rng: &mut Rng, s: usize, c: usize, colours: &Colours, limit: f32) -> Palette {
    let mut palette: Palette = (0..s).map(|_| colours.many(rng, c, limit)).collect();
    let copies = rng.pick(&[0, 0, 1, s / 2, s]);
    for _ in 0..copies {
        let (from, to) = (rng.below(s), rng.below(s));
        let mut copy = palette[from].clone();
        match rng.below(4) {
            0 => copy.reverse(),
            1 => copy[rng.below(c)] = colours.one(rng, limit),
            _ => {}
        }
        palette[to] = copy;
    }
    palette
}

/// Each of the tile sizes as often as the other.
pub fn tile_size(rng: &mut Rng) -> usize {
    rng.pick(&TILE_SIZES)
}

/// A tile of at most so many pixels, not empty; one in three has them all.
pub fn full_tile(rng: &mut Rng, size: usize, colours: &Colours) -> Tile {
    let many = rng.among(17, size);
    let n = match rng.below(6) {
        0 | 1 => 1,
        2 => rng.pick(&[size, 64, 64, many]),
        _ => rng.among(1, 16),
    };
    // beside one of each colour
    let some = rng.below(size - n + 1);
    let (mut spare, whole) = rng.pick(&[(0, false), (some, false), (size - n, true)]);
    let count = |_| {
        let more = if rng.once_in(2) { rng.below(spare + 1) } else { 0 };
        spare -= more;
        1 + more as u32
    };
    let mut counts: Vec<u32> = (0..n).map(count).collect();
    if whole {
        counts[rng.below(n)] += spare as u32;
    }
    Tile { colours: colours.many(rng, n, 2.0), counts }
}

/// A tile, an empty one now and then.
pub fn tile(rng: &mut Rng, size: usize, colours: &Colours) -> Tile {
    if rng.once_in(5) { Tile::default() } else { full_tile(rng, size, colours) }
}

pub fn tiles(rng: &mut Rng, size: usize, t: usize, colours: &Colours) -> Vec<Tile> {
    let mut tiles: Vec<Tile> = (0..t).map(|_| tile(rng, size, colours)).collect();
    if rng.once_in(2) {
        for _ in 0..t / 2 {
            let copy = tiles[rng.below(t)].clone();
            tiles[rng.below(t)] = copy;
        }
    }
    empty_the_rest(&mut tiles);
    tiles
}

/// Tiles are empty from where on their colours would be too many for a job.
pub fn empty_the_rest(tiles: &mut [Tile]) {
    let mut left = MOST_TILE_COLOURS;
    for tile in tiles {
        if tile.counts.len() > left {
            *tile = Tile::default();
        }
        left -= tile.counts.len();
    }
}

/// Hints of any size, most of them within 0..s.
pub fn hints(rng: &mut Rng, t: usize, s: usize) -> Vec<usize> {
    let hint = |_| match rng.below(8) {
        0 => rng.word() as usize,
        1 => u32::MAX as usize,
        _ => rng.below(s + 2),
    };
    (0..t).map(hint).collect()
}

/// A job of either tile size with at least one sample; `most` bounds the samples, and so the time that a run takes.
pub fn job(rng: &mut Rng, most: usize) -> Job {
    let size = tile_size(rng);
    of_tile_size(rng, size, most)
}

pub fn of_tile_size(rng: &mut Rng, size: usize, most: usize) -> Job {
    let colours = Colours::any(rng, 2.0);
    let (s, c) = (sixteen(rng), sixteen(rng));
    let t = match rng.below(8) {
        0 => 1,
        1 => 2,
        2 => rng.among(50, 120),
        _ => rng.among(1, 30),
    };
    let tiles = sampled_tiles(rng, size, t, &colours);
    let samples = samples(rng, &tiles, most);
    Job { size, s, c, weight: weight(rng), tiles, samples }
}

/// A job of just these S, C, T and n: all else is any.
pub fn of_sizes(rng: &mut Rng, [s, c, t, n]: [usize; 4]) -> Job {
    let (size, colours) = (tile_size(rng), Colours::any(rng, 2.0));
    let tiles = sampled_tiles(rng, size, t, &colours);
    let all = units(&tiles);
    let samples = (0..n).map(|_| rng.pick(&all)).collect();
    Job { size, s, c, weight: weight(rng), tiles, samples }
}

/// Tiles of which one at least is not empty.
fn sampled_tiles(rng: &mut Rng, size: usize, t: usize, colours: &Colours) -> Vec<Tile> {
    let mut tiles = tiles(rng, size, t, colours);
    if tiles.iter().all(|tile| tile.counts.is_empty()) {
        tiles[t - 1] = full_tile(rng, size, colours);
    }
    tiles
}

/// One sample for each unit of count in tile order, as grouping gives them.
fn units(tiles: &[Tile]) -> Vec<Sample> {
    let mut all = Vec::new();
    for (tile, data) in tiles.iter().enumerate() {
        for (place, &count) in data.counts.iter().enumerate() {
            all.extend((0..count).map(|_| Sample { tile, place }));
        }
    }
    all
}

/// One for each unit of count in tile order, or as many of them as there may be, or any number of any samples.
fn samples(rng: &mut Rng, tiles: &[Tile], most: usize) -> Vec<Sample> {
    let all = units(tiles);
    let n = match rng.below(6) {
        0 => rng.among(1, 12),
        1 => rng.pick(&[9, 10, 19, 20, 99, 100]),
        2 => rng.among(1, most),
        _ => {
            // of all tiles alike
            let n = most.min(all.len());
            return (0..n).map(|k| all[k * all.len() / n]).collect();
        }
    };
    (0..n).map(|_| rng.pick(&all)).collect()
}

/// What a host hands in at a stop: S·C colours within the limit, coarse as a console's own, or the working ones cut.
pub fn reduced(rng: &mut Rng, s: usize, c: usize) -> Vec<Colour> {
    Colours::any(rng, 2.0).many(rng, s * c, 2.0)
}

/// Numbers for the functions of stats: ties, zeros of both signs, infinities; no NaN.
pub fn values(rng: &mut Rng) -> Vec<f32> {
    let n = rng.pick(&[0, 1, 2, 3, 5, 16, 40]);
    let kind = rng.below(5);
    let value = |_| match kind {
        0 => rng.pick(&[0.0, -0.0, 1.0, -1.0]),
        1 => rng.pick(&[f32::INFINITY, f32::NEG_INFINITY, 0.0, -0.0, f32::MAX, f32::MIN, 3.0]),
        2 => rng.among(0, 4) as f32,
        3 => rng.signed(1000.0),
        _ => loop {
            let any = f32::from_bits(rng.word());
            if !any.is_nan() {
                break any;
            }
        },
    };
    (0..n).map(value).collect()
}

/// An f64 that is no NaN, for narrowing to f32: anywhere, near the overflow, subnormal results, ties, infinity.
pub fn wide(rng: &mut Rng) -> f64 {
    let bits = match rng.below(6) {
        // the halfway points between two f32 numbers and their neighbours
        0 => halfway(rng, f32::MAX.to_bits()),
        // results that are subnormal, or round to zero or to the least normal
        1 => halfway(rng, f32::MIN_POSITIVE.to_bits() + 4),
        2 => (f64::from(f32::from_bits(rng.word() % 3))).to_bits() + rng.bits() % 3,
        // near the overflow
        3 => (f64::from(f32::MAX)).to_bits() - 8 + rng.bits() % (1 << 31),
        // the exponents of f32, and some on both sides
        4 => ((1023 - 160 + rng.bits() % 320) << 52) | rng.bits() >> 12,
        _ => rng.bits() & !(1 << 63),
    };
    let size = f64::from_bits(bits);
    let size = if size.is_nan() { f64::INFINITY } else { size };
    if rng.once_in(3) { -size } else { size }
}

/// The middle between an f32 below `limit` in bits and the next, or a neighbour of that middle.
fn halfway(rng: &mut Rng, limit: u32) -> u64 {
    let low = f32::from_bits(rng.word() % limit);
    let middle = (f64::from(low) + f64::from(low.next_up())) / 2.0;
    let middle = if middle.is_finite() { middle } else { f64::from(f32::MAX) };
    middle.to_bits() + rng.bits() % 3 - u64::from(middle.to_bits() > 0)
}
