//! The program `train` as a process.

use terms::Tile;
use terms::jobs::{self, Colours};
use terms::rng::Rng;
use terms::sheet::{EDITIONS, Sheet, written};

use crate::sheet::trained;
use crate::tally::Tally;

pub fn any(rng: &mut Rng, case: u64, tally: &mut Tally) {
    trains(&super::any(rng, case), tally);
}

pub fn example(_: &mut Rng, case: u64, tally: &mut Tally) {
    super::examples(case).iter().for_each(|bytes| trains(bytes, tally));
}

pub fn editions(_: &mut Rng, case: u64, tally: &mut Tally) {
    super::editions(case).iter().for_each(|bytes| trains(bytes, tally));
}

pub fn limits(_: &mut Rng, case: u64, tally: &mut Tally) {
    trains(&super::limits(case), tally);
}

/// Counts that add up to nothing, to 16,384 and to one more, and the most that a sheet has; the largest training of all. Each in either
/// edition.
pub fn edges(rng: &mut Rng, case: u64, tally: &mut Tally) {
    let (edition, edge, colours) = (EDITIONS[case as usize % 2], case as usize / 2, Colours::any(rng, 2.0));
    let (size, full) = (edition.size, 16_384 / edition.size);
    let mut tiles: Vec<Tile> = match edge {
        0 => vec![Tile::default(); full],
        2 => counted(rng, 1024, size, &colours),
        3 => largest(rng, size, &colours),
        _ => counted(rng, full, size, &colours),
    };
    if edge == 1 {
        tiles.extend(counted(rng, 1, 1, &colours));
    }
    let (s, c) = if edge == 3 { (16, 16) } else { (2, 2) };
    let sheet = Sheet { edition, weight: 2.15, palette: jobs::palette(rng, s, c, &colours, 2.0), tiles };
    let bytes = written(&sheet);
    tally.same(trained::number(&bytes), [1, 2, 2, 0, 0][edge], || format!("the number of edge {edge}"));
    trains(&bytes, tally);
}

/// Tiles of one colour with this count.
fn counted(rng: &mut Rng, tiles: usize, count: usize, colours: &Colours) -> Vec<Tile> {
    let tile = |_| Tile { colours: vec![colours.one(rng, 2.0)], counts: vec![count as u32] };
    (0..tiles).map(tile).collect()
}

/// 16,384 units of count: in 1,024 tiles of four colours, or in 64 tiles of 256 units, of which 18 have as many colours, for which a sheet
/// just has room.
fn largest(rng: &mut Rng, size: usize, colours: &Colours) -> Vec<Tile> {
    if size == 64 {
        let four = |_| Tile { colours: colours.many(rng, 4, 2.0), counts: vec![1, 2, 3, 10] };
        return (0..1024).map(four).collect();
    }
    let full = |_| Tile { colours: colours.many(rng, 256, 2.0), counts: vec![1; 256] };
    let mut tiles: Vec<Tile> = (0..18).map(full).collect();
    tiles.extend(counted(rng, 46, 256, colours));
    tiles
}

fn trains(bytes: &[u8], tally: &mut Tally) {
    super::answered("program train", bytes, trained::number(bytes), tally);
    super::same("train", bytes, trained::trained(bytes), tally);
}
