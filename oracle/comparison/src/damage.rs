//! Damaged copies of good jobs: each damage touches one rule of docs/SCOPE.md, at its limit or far past it.

pub mod entries;
pub mod runs;
pub mod sheets;

use terms::rng::Rng;

use crate::lent::nans;
use crate::table::Given;

/// A length, a number or an entry that is wrong, or only at its limit.
pub fn damage(rng: &mut Rng, given: &mut Given, palette: &mut Vec<f32>) {
    match rng.below(12) {
        0 => size(rng, given),
        1 => match rng.below(4) {
            0 => length(rng, &mut given.tiles),
            1 => length(rng, &mut given.colours),
            2 => length(rng, &mut given.counts),
            _ => length(rng, palette),
        },
        2 => given.weight = weight(rng),
        3 | 4 => entry(rng, given),
        5 | 6 => count(rng, given),
        7 | 8 => component(rng, &mut given.colours, 2.0),
        9 => component(rng, palette, 2.0),
        10 => colour_more(rng, given),
        _ if rng.once_in(2) => given.colours = nans(given.colours.len()),
        _ => *palette = nans(palette.len()),
    }
}

fn size(rng: &mut Rng, given: &mut Given) {
    let wrong = |rng: &mut Rng, right: usize, most: usize| {
        rng.pick(&[
            0,
            right.wrapping_add(1),
            right.wrapping_sub(1),
            most + 1,
            usize::MAX,
            usize::MAX / 3 + 1,
            1 << 63,
            1 << 32,
        ])
    };
    match rng.below(4) {
        0 => given.s = wrong(rng, given.s, 16),
        1 => given.c = wrong(rng, given.c, 16),
        2 => given.t = wrong(rng, given.t, 1024),
        _ => given.size = tile_size(rng),
    }
}

/// Tile sizes that there are not.
pub const NO_TILE_SIZES: [usize; 10] = [0, 1, 63, 65, 128, 255, 257, 512, 1 << 32, usize::MAX];

/// One that there is not, or one that there is, which may be the other.
pub fn tile_size(rng: &mut Rng) -> usize {
    let none = rng.pick(&NO_TILE_SIZES);
    rng.pick(&[none, none, 64, 256])
}

/// One item more or less, three less, or none.
pub fn length<T: Copy + Default>(rng: &mut Rng, items: &mut Vec<T>) {
    match rng.below(4) {
        0 => items.push(items.last().copied().unwrap_or_default()),
        1 => drop(items.pop()),
        2 => items.truncate(items.len().saturating_sub(3)),
        _ => items.clear(),
    }
}

fn weight(rng: &mut Rng) -> f32 {
    rng.pick(&[
        0.0,
        -0.0,
        -1.0,
        16.0,
        16f32.next_up(),
        f32::NAN,
        -f32::NAN,
        f32::INFINITY,
        f32::NEG_INFINITY,
        f32::from_bits(1),
        -f32::from_bits(1),
    ])
}

/// An entry of the tile table.
fn entry(rng: &mut Rng, given: &mut Given) {
    if given.tiles.len() < 2 {
        return;
    }
    let place = rng.below(given.tiles.len());
    let right = given.tiles[place];
    given.tiles[place] = match rng.below(6) {
        0 => right.wrapping_add(1),
        1 => right.wrapping_sub(1),
        2 => rng.pick(&[65, 257]),
        3 => u32::MAX,
        4 => 1 << 31,
        _ => 0,
    };
    // a neighbour may make up for it, so that only one test is left to see it
    if rng.once_in(3) {
        let other = (place + 2) % given.tiles.len();
        given.tiles[other] = given.tiles[other].wrapping_add(right).wrapping_sub(given.tiles[place]);
    }
}

/// A count, at the limit of its tile's sum or wrong.
fn count(rng: &mut Rng, given: &mut Given) {
    if given.counts.is_empty() {
        return;
    }
    let place = rng.below(given.counts.len());
    given.counts[place] = match rng.below(6) {
        0 => 0,
        1 => u32::MAX,
        2 => u32::MAX - rng.pick(&[63, 255]),
        3 => 1 << 31,
        _ => {
            // the tile's sum becomes a tile size or one more
            let (end, place) = (given.counts.len(), place as u32);
            let tile =
                given.tiles.as_chunks().0.iter().find(|[first, n]| (*first..first.saturating_add(*n)).contains(&place));
            let part = tile.map_or(0..0, |&[first, n]| first as usize..end.min(first as usize + n as usize));
            let others = part.filter(|&k| k != place as usize).map(|k| u64::from(given.counts[k])).sum();
            rng.pick(&[64u64, 65, 256, 257]).saturating_sub(others) as u32
        }
    };
}

/// A component at the limit, past it, or no number.
pub fn component(rng: &mut Rng, numbers: &mut [f32], limit: f32) {
    if numbers.is_empty() {
        return;
    }
    let nan = rng.pick(&nans(64));
    let size = rng.pick(&[limit, limit.next_up(), limit.next_down(), nan, f32::INFINITY, f32::MAX, 0.0, 2.5]);
    let place = rng.below(numbers.len());
    numbers[place] = if rng.once_in(2) { -size } else { size };
}

/// One colour more at the end of the last tile, with its count: right unless that tile is full.
fn colour_more(rng: &mut Rng, given: &mut Given) {
    let Some(last) = given.tiles.last_mut() else { return };
    *last = last.wrapping_add(1);
    given.colours.extend([0.5, 0.25, -0.25]);
    given.counts.push(1 + rng.below(2) as u32);
}
