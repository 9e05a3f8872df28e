//! The distances and choices of docs/SCOPE.md, over the subpalettes that are present.

use terms::{Colour, Palette, Tile};

/// The first colours of the first subpalettes of a palette with room for more.
#[derive(Clone, Copy)]
pub struct Present<'a> {
    pub palette: &'a [Colour],
    /// Places of a subpalette.
    pub room: usize,
    pub subs: usize,
    pub have: usize,
    pub weight: f32,
}

impl<'a> Present<'a> {
    pub fn sub(&self, i: usize) -> &'a [Colour] {
        &self.palette[i * self.room..][..self.have]
    }

    fn distances(&self, tile: &Tile) -> impl Iterator<Item = f32> {
        (0..self.subs).map(|i| distance(self.sub(i), tile, self.weight))
    }

    /// The least (distance, index).
    pub fn fit(&self, tile: &Tile) -> (usize, f32) {
        let mut best = (0, f32::INFINITY);
        for (i, dist) in self.distances(tile).enumerate() {
            if i == 0 || dist < best.1 {
                best = (i, dist);
            }
        }
        best
    }

    /// The winner, its distance, and the smallest of the others'.
    pub fn two(&self, tile: &Tile) -> (usize, f32, f32) {
        let (winner, least) = self.fit(tile);
        let others = self.distances(tile).enumerate().filter(|(i, _)| *i != winner);
        (winner, least, others.map(|(_, dist)| dist).fold(f32::INFINITY, f32::min))
    }

    /// More than one subpalette has the least distance.
    pub fn tied(&self, tile: &Tile) -> bool {
        let (_, least, second) = self.two(tile);
        least == second
    }
}

fn sqdist(p: Colour, q: Colour, weight: f32) -> f32 {
    let [dl, da, db] = [0, 1, 2].map(|k| p[k] - q[k]);
    dl * dl + weight * (da * da + db * db)
}

pub fn nearest(sub: &[Colour], q: Colour, weight: f32) -> (usize, f32) {
    let mut best = (0, f32::INFINITY);
    for (i, &colour) in sub.iter().enumerate() {
        let dist = sqdist(colour, q, weight);
        if dist < best.1 {
            best = (i, dist);
        }
    }
    best
}

/// The nearest, its distance, and the smallest of the others'.
pub fn nearest_two(sub: &[Colour], q: Colour, weight: f32) -> (usize, f32, f32) {
    let (winner, least) = nearest(sub, q, weight);
    let others = sub.iter().enumerate().filter(|(i, _)| *i != winner);
    (winner, least, others.map(|(_, &colour)| sqdist(colour, q, weight)).fold(f32::INFINITY, f32::min))
}

/// Among the indexes other than the winner those of least value.
fn runners_up(values: &[f32], winner: usize) -> Vec<usize> {
    let others = || (0..values.len()).filter(move |&i| i != winner);
    let least = others().map(|i| values[i]).fold(f32::INFINITY, f32::min);
    others().filter(|&i| values[i] == least).collect()
}

/// The lowest of those; the winner itself where there is no other.
pub fn next(values: &[f32], winner: usize) -> usize {
    runners_up(values, winner).first().copied().unwrap_or(winner)
}

/// The next nearest colour, where `winner` is the nearest.
pub fn next_nearest(sub: &[Colour], q: Colour, weight: f32, winner: usize) -> usize {
    next(&sub.iter().map(|&colour| sqdist(colour, q, weight)).collect::<Vec<_>>(), winner)
}

fn distances(palette: &Palette, tile: &Tile, weight: f32) -> Vec<f32> {
    palette.iter().map(|sub| distance(sub, tile, weight)).collect()
}

/// The next best subpalette, where `winner` is the best.
pub fn next_best(palette: &Palette, tile: &Tile, weight: f32, winner: usize) -> usize {
    next(&distances(palette, tile, weight), winner)
}

/// Several subpalettes are next best; some before the winner and some behind it.
pub fn tied_next(palette: &Palette, tile: &Tile, weight: f32, winner: usize) -> (bool, bool) {
    let all = runners_up(&distances(palette, tile, weight), winner);
    (all.len() > 1, all.iter().any(|&i| i < winner) && all.iter().any(|&i| i > winner))
}

fn distance(sub: &[Colour], tile: &Tile, weight: f32) -> f32 {
    let mut sum = 0.0;
    for (&colour, &count) in tile.colours.iter().zip(&tile.counts) {
        sum += nearest(sub, colour, weight).1 * count as f32;
    }
    sum
}

/// The last of the greatest, by IEEE total order.
pub fn argmax(values: &[f32]) -> usize {
    (1..values.len()).fold(0, |best, i| if values[i].total_cmp(&values[best]).is_ge() { i } else { best })
}

/// The first of the least, by IEEE total order.
pub fn argmin(values: &[f32]) -> usize {
    (1..values.len()).fold(0, |best, i| if values[i].total_cmp(&values[best]).is_lt() { i } else { best })
}
