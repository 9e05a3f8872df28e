//! What the stages of docs/SCOPE.md do between their draws. Each is given what is present and the hints, which it only writes.

use terms::{Colour, Tile};

use super::fits::{self, Present};

/// Tiles that are not empty, each with its winner, which becomes its hint.
fn fitted<'a>(
    present: Present<'a>,
    tiles: &'a [Tile],
    hints: &'a mut [u32],
) -> impl Iterator<Item = (&'a Tile, usize, f32)> {
    let full = tiles.iter().zip(hints).filter(|(tile, _)| !tile.counts.is_empty());
    full.map(move |(tile, hint)| {
        let (winner, dist) = present.fit(tile);
        *hint = winner as u32;
        (tile, winner, dist)
    })
}

fn weighed(tile: &Tile) -> impl Iterator<Item = (Colour, f32)> {
    tile.colours.iter().zip(&tile.counts).map(|(&colour, &count)| (colour, count as f32))
}

/// The subpalette to split next.
pub fn worst(present: Present, tiles: &[Tile], hints: &mut [u32]) -> usize {
    let mut sums = vec![0.0; present.subs];
    for (_, winner, dist) in fitted(present, tiles, hints) {
        sums[winner] += dist;
    }
    fits::argmax(&sums)
}

/// The error of a palette: summed in f64, narrowed at the end.
pub fn mse(present: Present, tiles: &[Tile], hints: &mut [u32]) -> f32 {
    let (mut total, mut count) = (0f64, 0f64);
    for (tile, winner, _) in fitted(present, tiles, hints) {
        for (colour, times) in weighed(tile) {
            let (_, dist) = fits::nearest(present.sub(winner), colour, present.weight);
            total += f64::from(dist) * f64::from(times);
            count += f64::from(times);
        }
    }
    if count == 0.0 { 0.0 } else { (total / count) as f32 }
}

/// In each subpalette, the colour that growing duplicates.
pub fn to_grow(present: Present, tiles: &[Tile], hints: &mut [u32]) -> Vec<usize> {
    if present.have < 2 {
        return vec![0; present.subs];
    }
    let mut sums = vec![vec![0.0; present.have]; present.subs];
    for (tile, winner, _) in fitted(present, tiles, hints) {
        for (colour, times) in weighed(tile) {
            let (place, dist) = fits::nearest(present.sub(winner), colour, present.weight);
            sums[winner][place] += dist * times;
        }
    }
    sums.iter().map(|sums| fits::argmax(sums)).collect()
}

/// Copies a part over another that is weak enough: from, to.
pub type Copy = Option<(usize, usize)>;

/// The strongest sum's place onto the weakest's, where half of the first is above the second.
fn replacement(total: &[f32], second: &[f32]) -> Copy {
    let (from, to) = (fits::argmax(total), fits::argmin(second));
    (from != to && second[to] < 0.5 * total[from]).then_some((from, to))
}

/// What `replace_weakest` copies: a colour in each subpalette, then a whole subpalette.
pub fn to_replace(present: Present, tiles: &[Tile], hints: &mut [u32]) -> (Vec<Copy>, Copy) {
    let mut winners = vec![0; tiles.len()];
    let mut whole = None;
    if present.subs > 1 {
        let (mut total, mut second) = (vec![0.0; present.subs], vec![0.0; present.subs]);
        for (i, tile) in tiles.iter().enumerate() {
            let (winner, least, next) = present.two(tile);
            total[winner] += least;
            second[winner] += next;
            (winners[i], hints[i]) = (winner, winner as u32);
        }
        whole = replacement(&total, &second);
    }
    (weak_colours(present, tiles, &winners), whole)
}

fn weak_colours(present: Present, tiles: &[Tile], winners: &[usize]) -> Vec<Copy> {
    if present.have < 2 {
        return vec![None; present.subs];
    }
    let mut sums = vec![(vec![0.0; present.have], vec![0.0; present.have]); present.subs];
    for (tile, &winner) in tiles.iter().zip(winners) {
        for (colour, times) in weighed(tile) {
            let (place, least, next) = fits::nearest_two(present.sub(winner), colour, present.weight);
            sums[winner].0[place] += least * times;
            sums[winner].1[place] += next * times;
        }
    }
    sums.iter().map(|(total, second)| replacement(total, second)).collect()
}

/// The palette after one refinement.
pub fn refined(present: Present, tiles: &[Tile], hints: &mut [u32]) -> Vec<Colour> {
    let mut sums = vec![([0f32; 3], 0u32); present.palette.len()];
    for (tile, winner, _) in fitted(present, tiles, hints) {
        for (&colour, &count) in tile.colours.iter().zip(&tile.counts) {
            let (place, _) = fits::nearest(present.sub(winner), colour, present.weight);
            let (sum, all) = &mut sums[winner * present.room + place];
            (0..3).for_each(|k| sum[k] += colour[k] * count as f32);
            *all += count;
        }
    }
    let mean = |(&old, &(sum, all)): (&Colour, &([f32; 3], u32))| match all {
        0 => old,
        _ => sum.map(|x| x / all as f32),
    };
    present.palette.iter().zip(&sums).map(mean).collect()
}
