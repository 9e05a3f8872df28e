//! The terms in which the Rust is asked and answers, and the host that it calls for reductions.

pub mod host;
pub mod jobs;
pub mod rng;
pub mod sheet;

/// An Oklab colour: l, a, b.
pub type Colour = [f32; 3];

/// A tile's distinct colours with their counts.
#[derive(Clone, Debug, Default)]
pub struct Tile {
    pub colours: Vec<Colour>,
    pub counts: Vec<u32>,
}

/// A training sample: a tile and the place of a colour in it.
#[derive(Clone, Copy, Debug)]
pub struct Sample {
    pub tile: usize,
    pub place: usize,
}

/// The sizes that a job's tiles may have.
pub const TILE_SIZES: [usize; 2] = [64, 256];

/// What a run is made of, apart from its seed.
#[derive(Clone, Debug)]
pub struct Job {
    /// The tile size, of which the Rust knows nothing.
    pub size: usize,
    pub s: usize,
    pub c: usize,
    pub weight: f32,
    pub tiles: Vec<Tile>,
    pub samples: Vec<Sample>,
}

impl Job {
    /// S, C, T and n: those that a record holds.
    pub fn sizes(&self) -> [usize; 4] {
        [self.s, self.c, self.tiles.len(), self.samples.len()]
    }
}

/// The record's last word, of which the Rust knows nothing: S, C, T and n in 16 bits each, the most significant first.
pub fn sizes_word(sizes: [usize; 4]) -> u64 {
    sizes.into_iter().fold(0, |word, size| word << 16 | size as u64)
}

/// Subpalettes, each with the colours present.
pub type Palette = Vec<Vec<Colour>>;

/// A winner, its distance, and the hint left behind.
#[derive(Clone, Copy, Debug)]
pub struct Fit {
    pub index: usize,
    pub dist: f32,
    pub hint: usize,
}

/// A winner, its distance, the second smallest distance, and the hint left behind.
#[derive(Clone, Copy, Debug)]
pub struct FitTwo {
    pub index: usize,
    pub dist: f32,
    pub second: f32,
    pub hint: usize,
}

/// An edit of a palette, by indexes of subpalettes and colours.
#[derive(Clone, Copy, Debug)]
pub enum Edit {
    DuplicatePalette(usize),
    DuplicateColor { sub: usize, from: usize },
    CopySubpalette { from: usize, to: usize },
    CopyColor { sub: usize, from: usize, to: usize },
}

/// What can be seen at a stop: the palette before its reduction, and the hints.
#[derive(Clone, Debug)]
pub struct Stop {
    pub palette: Palette,
    pub hints: Vec<usize>,
}

/// A whole run: its three stops and its result, with the hints at the end.
#[derive(Clone, Debug)]
pub struct Ran {
    pub stops: Vec<Stop>,
    pub result: Palette,
    pub hints: Vec<usize>,
}

/// One entry of a grouped tile.
#[derive(Clone, Copy, Debug)]
pub struct Entry {
    pub bytes: [u8; 4],
    pub oklab: Colour,
    pub count: u32,
}

/// A grouped tile: its entries, and the entry of each kept pixel.
#[derive(Clone, Debug)]
pub struct Grouped {
    pub entries: Vec<Entry>,
    pub index: Vec<Option<usize>>,
}

/// The host's reduction: number of the stop, place in the palette, colour.
pub type Reduce = Box<dyn FnMut(usize, usize, Colour) -> Colour>;

/// The Rust as the crate's own modules see it: nothing here needs a changed file.
pub trait Rust {
    fn shuffle(&self, seed: u64, items: &mut [u32]);
    fn argmax(&self, values: &[f32]) -> usize;
    fn argmin(&self, values: &[f32]) -> usize;
    fn smallest_two(&self, values: &[f32]) -> (usize, f32, f32);
    fn sqdist(&self, p: Colour, q: Colour) -> f32;
    fn mean(&self, colours: &[Colour]) -> Option<Colour>;
    fn nearest(&self, sub: &[Colour], q: Colour) -> (usize, f32);
    fn nearest_two(&self, sub: &[Colour], q: Colour) -> (usize, f32, f32);
    /// A fit from each of the hints.
    fn best_fit(&self, palette: &Palette, tile: &Tile, hints: &[usize]) -> Vec<Fit>;
    fn best_two(&self, palette: &Palette, tile: &Tile, hints: &[usize]) -> Vec<FitTwo>;
    fn mse(&self, palette: &Palette, tiles: &[Tile], hints: &mut [usize]) -> f32;
    /// Fits the tile, then nudges the nearest colour of the winner. Gives the hint left behind.
    fn nudge(&self, palette: &mut Palette, tile: &Tile, hint: usize, target: Colour, alpha: f32) -> usize;
    fn edit(&self, palette: &mut Palette, edit: Edit);
    fn assign(&self, palette: &Palette, tiles: &[Tile], hints: &mut [usize]) -> Vec<usize>;
    /// Groups the pixels of one tile; `host::name` has told the Oklab of each reduced colour.
    fn group(&self, pixels: &[[u8; 4]], zero: Option<[u8; 4]>) -> Grouped;
    fn run(&self, job: &Job, hints: &[usize], seed: u64, reduce: Reduce) -> Ran;
}

/// The state of a run between two draws, all work done that needs no draw.
#[derive(Clone, Debug, Default)]
pub struct Held {
    pub palette: Palette,
    /// The palette of least error, in stage 2 only.
    pub least: Palette,
    pub hints: Vec<usize>,
    pub order: Vec<u32>,
    /// Those of the record that change: generator state, stage, rounds finished in it, draws left in the round, draws made, bits of the
    /// least error.
    pub words: [u64; 6],
}

/// What seeding leaves: the palette, the hints, the order of draws and the generator's state.
#[derive(Clone, Debug)]
pub struct Seeded {
    pub palette: Palette,
    pub hints: Vec<usize>,
    pub order: Vec<u32>,
    pub state: u64,
}

/// A run that can be stopped anywhere, put together from the Rust's private stage functions.
pub trait Steps {
    fn held(&self) -> Held;
    /// Up to `draws` draws, and the work that is then due. Gives the draws made.
    fn advance(&mut self, draws: u64) -> u64;
    /// At a stop: takes the reduced colours and does the work that is then due.
    fn hand_in(&mut self, reduced: &[Colour]);
}

/// What only a copy of the Rust with a probe appended can show.
pub trait Probed: Rust {
    /// The outputs of a seed, and the generator's state after them.
    fn next(&self, seed: u64, count: usize) -> (Vec<u64>, u64);
    fn shuffle_state(&self, seed: u64, items: &mut [u32]) -> u64;
    /// The first draws of a cycle over n samples.
    fn cycle(&self, seed: u64, n: usize, draws: usize) -> Vec<usize>;
    /// Draws in a round of n samples: the Rust's b.
    fn base_iterations(&self, n: usize) -> usize;
    fn distance(&self, sub: &[Colour], tile: &Tile) -> f32;
    fn distance_within(&self, sub: &[Colour], tile: &Tile, limit: f32, lose: bool) -> Option<f32>;
    fn replace_weakest(&self, palette: &Palette, tiles: &[Tile], hints: &mut [usize]) -> Palette;
    /// One round of growing without draws.
    fn grow(&self, palette: &Palette, tiles: &[Tile], hints: &mut [usize]) -> Palette;
    fn refine(&self, palette: &Palette, tiles: &[Tile], hints: &mut [usize]) -> Palette;
    /// The seeding of s subpalettes, draws included.
    fn seed(&self, job: &Job, hints: &[usize], seed: u64) -> Seeded;
    /// The subpalette that seeding splits next.
    fn worst(&self, palette: &Palette, tiles: &[Tile], hints: &mut [usize]) -> usize;
    fn start(&self, job: &Job, hints: &[usize], seed: u64) -> Box<dyn Steps>;
    /// A run from a state between two draws.
    fn resume(&self, job: &Job, held: &Held) -> Box<dyn Steps>;
}
