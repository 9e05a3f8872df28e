//! The jobs that are measured, from their sizes alone: each tile has colours of one to three clusters, as artwork has, 4 to 28 of
//! them, and 64 pixels, most of them in its first colours. A tile of 256 pixels has 16 to 256 colours.

use terms::rng::Rng;
use terms::{Job, Sample, Tile};

const MOST_COLOURS: usize = 16_384;

/// The tile size, S, C, T, n.
pub fn job([size, s, c, t, n]: [usize; 5]) -> Job {
    let mut rng = Rng::new(10);
    let centre = |rng: &mut Rng| [rng.unit(), rng.signed(0.3), rng.signed(0.3)];
    let centres: Vec<_> = (0..48).map(|_| centre(&mut rng)).collect();
    let mut room = MOST_COLOURS;
    let colours = |i: usize| if size == 64 { 4 + 7 * i % 25 } else { 16 + 97 * i % 241 };
    let tiles: Vec<Tile> = (0..t).map(|i| tile(&mut rng, &centres, &mut room, size, colours(i))).collect();
    let pixels: Vec<Sample> = tiles.iter().enumerate().flat_map(|(tile, data)| pixels(tile, data)).collect();
    let samples = (0..n).map(|i| pixels[i * pixels.len() / n]).collect();
    Job { size, s, c, weight: 2.15, tiles, samples }
}

fn tile(rng: &mut Rng, centres: &[[f32; 3]], room: &mut usize, pixels: usize, colours: usize) -> Tile {
    let number = colours.min(*room);
    *room -= number;
    let own: Vec<_> = (0..rng.among(1, 3)).map(|_| rng.pick(centres)).collect();
    let colours = (0..number).map(|_| rng.pick(&own).map(|x| x + rng.signed(0.08))).collect();
    let mut spare = pixels - number;
    let counts = (0..number)
        .map(|i| {
            let more = if i + 1 == number { spare } else { rng.below(spare / 2 + 1) };
            spare -= more;
            1 + more as u32
        })
        .collect();
    Tile { colours, counts }
}

fn pixels(tile: usize, data: &Tile) -> Vec<Sample> {
    let of = |(place, &count): (usize, &u32)| vec![Sample { tile, place }; count as usize];
    data.counts.iter().enumerate().flat_map(of).collect()
}
