//! The answer numbers of docs/SCOPE.md and their indexes, read independently of our definitions: plain tests in the order that it gives.

use terms::{Colour, Palette, Tile};

/// A number of the scope's table, 0 where nothing is wrong, and the index of the entry at fault, 0 where the number names none. Of two
/// colours at fault the lesser is told: their numbers rise in the order of the tests.
#[derive(Clone, Copy, Debug, Default, PartialEq, Eq, PartialOrd, Ord)]
pub struct Refusal {
    pub number: u32,
    pub index: usize,
}

/// With no entry.
impl From<u32> for Refusal {
    fn from(number: u32) -> Self {
        Refusal { number, index: 0 }
    }
}

/// What every call with a job is given, as a stranger may give it.
#[derive(Clone, Debug)]
pub struct Given {
    /// The tile size.
    pub size: usize,
    pub s: usize,
    pub c: usize,
    pub t: usize,
    pub weight: f32,
    pub tiles: Vec<u32>,
    pub colours: Vec<f32>,
    pub counts: Vec<u32>,
}

impl Given {
    pub fn new(size: usize, palette: &Palette, tiles: &[Tile], weight: f32) -> Self {
        let mut given = Given {
            size,
            s: palette.len(),
            c: palette[0].len(),
            t: tiles.len(),
            weight,
            tiles: Vec::new(),
            colours: Vec::new(),
            counts: Vec::new(),
        };
        for tile in tiles {
            given.tiles.extend([given.counts.len() as u32, tile.counts.len() as u32]);
            given.colours.extend(tile.colours.as_flattened());
            given.counts.extend(&tile.counts);
        }
        given
    }

    /// The tiles of a job that is accepted.
    pub fn tiles(&self) -> Vec<Tile> {
        let tile = |entry: &[u32]| {
            let places = entry[0] as usize..(entry[0] + entry[1]) as usize;
            Tile {
                colours: colours(&self.colours[3 * places.start..3 * places.end]),
                counts: self.counts[places].to_vec(),
            }
        };
        self.tiles.chunks(2).map(tile).collect()
    }
}

pub fn colours(numbers: &[f32]) -> Vec<Colour> {
    numbers.as_chunks().0.to_vec()
}

/// Where a test fails: the index of the entry at fault.
pub type Fault = Option<usize>;

/// The first number whose test fails, and the index that goes with it.
pub fn first(tests: &[(u32, &dyn Fn() -> Fault)]) -> Refusal {
    let failed = |(number, test): &(u32, &dyn Fn() -> Fault)| test().map(|index| Refusal { number: *number, index });
    tests.iter().find_map(failed).unwrap_or_default()
}

/// The fault of a test that names no entry.
pub fn unless(passes: bool) -> Fault {
    if passes { None } else { Some(0) }
}

pub fn tile_size(size: usize) -> bool {
    size == 64 || size == 256
}

pub fn sizes(given: &Given) -> bool {
    tile_size(given.size) && (1..=16).contains(&given.s) && (1..=16).contains(&given.c) && (1..=1024).contains(&given.t)
}

/// Of the slices that every call has: two numbers a tile, three a count.
pub fn lengths(given: &Given) -> bool {
    given.tiles.len() == 2 * given.t && given.colours.len() == 3 * given.counts.len()
}

pub fn weight(weight: f32) -> bool {
    weight > 0.0 && weight <= 16.0
}

/// Consecutive from 0, each length at most the tile size, in all what is lent, which is at most 16,384.
pub fn table(given: &Given) -> bool {
    let mut total = 0u64;
    for entry in given.tiles.chunks(2) {
        if u64::from(entry[0]) != total || entry[1] as usize > given.size {
            return false;
        }
        total += u64::from(entry[1]);
    }
    total == given.counts.len() as u64 && total <= 16_384
}

/// Of a table that passed.
pub fn counts(given: &Given) -> bool {
    given.tiles.chunks(2).all(|entry| {
        let part = &given.counts[entry[0] as usize..][..entry[1] as usize];
        part.iter().all(|&count| count >= 1) && part.iter().map(|&count| count as usize).sum::<usize>() <= given.size
    })
}

pub fn within(numbers: &[f32], limit: f32) -> bool {
    numbers.iter().all(|x| x.is_finite() && x.abs() <= limit)
}

/// The first colour with a component that is not within the limit, counted through one slice after the other.
pub fn bad_colour(slices: &[&[f32]], limit: f32) -> Fault {
    slices.iter().flat_map(|numbers| numbers.chunks(3)).position(|colour| !within(colour, limit))
}

/// What the scope says of a call without samples, whose own tests of numbers 2 and 3 are given.
pub fn plain(given: &Given, palette: &[f32], own_sizes: bool, own_lengths: bool) -> Refusal {
    first(&[
        (2, &|| unless(sizes(given) && own_sizes)),
        (3, &|| unless(lengths(given) && palette.len() == 3 * given.s * given.c && own_lengths)),
        (4, &|| unless(weight(given.weight))),
        (5, &|| unless(table(given))),
        (6, &|| unless(counts(given))),
        (7, &|| bad_colour(&[palette, &given.colours], 2.0)),
    ])
}

/// The subpalettes of a job that is accepted.
pub fn subs(given: &Given, palette: &[f32]) -> Palette {
    colours(palette).chunks(given.c).map(<[_]>::to_vec).collect()
}
