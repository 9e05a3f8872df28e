//! What the program `train` writes for a sheet, by the reading here and the Rust's run.

use terms::sheet::{Sheet, written};
use terms::{Colour, Job, Sample, Tile};

use super::fitted::refused;
use super::read_either;

/// The number that a sheet gets: its own, or that of its samples.
pub fn number(bytes: &[u8]) -> u32 {
    match read_either(bytes).map(|sheet| samples(&sheet.tiles).len()) {
        Err(refusal) => refusal.number,
        Ok(0) => 1,
        Ok(n) if n > 16_384 => 2,
        Ok(_) => 0,
    }
}

/// One for each unit of count, tile by tile and colour by colour.
fn samples(tiles: &[Tile]) -> Vec<Sample> {
    let of_tile = |(tile, data): (usize, &Tile)| {
        let of_colour = move |(place, &count): (usize, &u32)| vec![Sample { tile, place }; count as usize];
        data.counts.iter().enumerate().flat_map(of_colour).collect::<Vec<_>>()
    };
    tiles.iter().enumerate().flat_map(of_tile).collect()
}

/// The sheet, in its edition, with the palette that the Rust trains from seed 0, its host cutting the working colours to -2..2 at each
/// stop.
pub fn trained(bytes: &[u8]) -> Vec<u8> {
    match number(bytes) {
        0 => {}
        number => return refused(number).into_bytes(),
    }
    let Sheet { edition, weight, palette, tiles } = read_either(bytes).unwrap();
    let (s, c) = (palette.len(), palette[0].len());
    let job = Job { size: edition.size, s, c, weight, samples: samples(&tiles), tiles };
    let cut = Box::new(|_, _, colour: Colour| colour.map(|x| x.clamp(-2.0, 2.0)));
    let ran = answers::rust(job.weight).run(&job, &vec![0; job.tiles.len()], 0, cut);
    written(&Sheet { edition, weight, palette: ran.result, tiles: job.tiles })
}
