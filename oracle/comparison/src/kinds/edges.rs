//! The limits of docs/SCOPE.md, each on both sides, through every public call that they concern. Numbers and indexes stand here as they
//! are read there, beside those of table.rs and reading/.

mod entries;
mod order;
mod plain;
mod records;
mod runs;
pub mod sheets;
mod tile_sizes;

use terms::{Job, Sample, Tile};

use super::{JOBS, Kind, SIZES, in_turn, whole};
use crate::lent::nans;
use crate::table::Refusal;
use crate::tally::Tally;

/// One case for each tile size.
pub const KINDS: &[Kind] = &[
    whole("edges of jobs", 2, |rng, case, tally| plain::compare(rng, in_turn(case), tally)).bringing(JOBS),
    whole("edges of runs", 2, |_, case, tally| runs::compare(in_turn(case), tally)).bringing(JOBS),
    whole("edges of records", 2, |_, case, tally| records::compare(in_turn(case), tally)).bringing(SIZES),
    whole("edges of sheets", 2, |_, case, tally| sheets::compare(in_turn(case), tally)).bringing(JOBS),
    whole("edges of entries", 2, |rng, case, tally| entries::compare(rng, in_turn(case), tally)).bringing(SIZES),
    whole("edges of order", 2, |rng, case, tally| order::compare(rng, in_turn(case), tally)).bringing(SIZES),
    whole("edges of tile sizes", 2, |rng, case, tally| tile_sizes::compare(rng, in_turn(case), tally)).bringing(SIZES),
];

const DONE: Refusal = Refusal { number: 0, index: 0 };

/// A number with the index of a colour; what is done has none.
fn at(number: u32, index: usize) -> Refusal {
    if number == 0 { DONE } else { Refusal { number, index } }
}

/// What the scope has for an edge, beside what was compared.
fn listed(tally: &mut Tally, what: &str, call: &str, compared: impl Into<Refusal>, right: impl Into<Refusal>) {
    tally.same(compared.into(), right.into(), || format!("{what}, {call}: the number and index read here"));
}

/// A tile of so many colours, each counted once.
fn tile(colours: usize) -> Tile {
    Tile { colours: (0..colours).map(|k| [k as f32 / 256.0, 0.25, -0.25]).collect(), counts: vec![1; colours] }
}

fn tiles(t: usize, colours: usize) -> Vec<Tile> {
    vec![tile(colours); t]
}

/// Tile colours in all: tiles of as many as can be, and a last one of the rest.
fn colours_in_all(size: usize, n: usize) -> Vec<Tile> {
    (0..n.div_ceil(size)).map(|i| tile(size.min(n - size * i))).collect()
}

/// One tile of as many colours as counts.
fn counted(counts: &[u32]) -> Vec<Tile> {
    vec![Tile { counts: counts.to_vec(), ..tile(counts.len()) }]
}

/// Counts of one tile that add up to its size and to one more, with the number that they get.
fn sums(size: usize) -> Vec<(Vec<u32>, u32)> {
    let size = size as u32;
    let over = [vec![size + 1], vec![size, 1], vec![1, size], vec![size, size]];
    let fits = [vec![size], vec![size - 1, 1], vec![1, size - 1], vec![size / 4; 4]];
    fits.into_iter().map(|counts| (counts, 0)).chain(over.into_iter().map(|counts| (counts, 6))).collect()
}

/// One tile of one colour with this component.
fn component(x: f32) -> Vec<Tile> {
    vec![Tile { colours: vec![[0.5, x, 0.0]], counts: vec![3] }]
}

/// A job whose samples are the first colour of its first tile, or name what is not there.
fn job(size: usize, [s, c]: [usize; 2], tiles: Vec<Tile>, n: usize) -> Job {
    Job { size, s, c, weight: 2.15, tiles, samples: vec![Sample { tile: 0, place: 0 }; n] }
}

/// A magnitude's limit, the next float above it, and both below zero, with the number of each; what is no magnitude.
fn around(limit: f32, number: u32) -> Vec<(f32, u32)> {
    let over = limit.next_up();
    let none = [f32::NAN, f32::INFINITY, f32::NEG_INFINITY].into_iter().chain(nans(4));
    [(limit, 0), (-limit, 0), (over, number), (-over, number)].into_iter().chain(none.map(|x| (x, number))).collect()
}

/// Weights at their limits, with the number of each.
fn weights() -> [(f32, u32); 8] {
    let least = f32::from_bits(1);
    [(16.0, 0), (16f32.next_up(), 4), (least, 0), (0.0, 4), (-0.0, 4), (-least, 4), (f32::NAN, 4), (f32::INFINITY, 4)]
}
