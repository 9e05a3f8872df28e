//! Sheets for the hosts, and what the Rust makes of them for a console of 15-bit colours: console SEED COUNT FOLDER [EDITION] writes sheets
//! 0.sheet, 1.sheet .. and beside each what it is trained to, 0.rust, 1.rust .., or `refused N`. EDITION is 1 or 2; without it forty
//! sheets are of the first edition, the next forty of the second, and so on.
//!
//! The samples are the hosts': one for each unit of count in tile order, seed 0, hints 0. So is the reduction, which is the Rust
//! host's own file.

#[path = "../../../hosts/rust/src/console.rs"]
mod console;

use std::fs;
use std::path::Path;
use std::process::ExitCode;

use terms::jobs::{self, Colours};
use terms::rng::Rng;
use terms::sheet::{EDITIONS, Edition, MOST_BYTES, Sheet, written};
use terms::{Job, Sample, Tile};

const MOST_SAMPLES: usize = 16_384;
/// After so many sheets each kind of them was made once.
const ROUND: u64 = 40;
const USE: &str = "use: console SEED COUNT FOLDER [EDITION]; SEED and COUNT are decimal, EDITION is 1 or 2";

fn main() -> ExitCode {
    let words: Vec<String> = std::env::args().skip(1).collect();
    let words: Vec<&str> = words.iter().map(String::as_str).collect();
    let done = match words[..] {
        [seed, count, folder] => make(seed, count, Path::new(folder), &EDITIONS),
        [seed, count, folder, "1"] => make(seed, count, Path::new(folder), &EDITIONS[..1]),
        [seed, count, folder, "2"] => make(seed, count, Path::new(folder), &EDITIONS[1..]),
        _ => Err(USE.to_string()),
    };
    match done {
        Ok(()) => ExitCode::SUCCESS,
        Err(why) => {
            eprintln!("{why}");
            ExitCode::FAILURE
        }
    }
}

/// Rounds of sheets, each of another of the editions.
fn make(seed: &str, count: &str, folder: &Path, editions: &[Edition]) -> Result<(), String> {
    let number = |word: &str| word.parse::<u64>().map_err(|_| format!("{word} is no decimal number"));
    let (seed, count) = (number(seed)?, number(count)?);
    let write = |name: String, bytes: Vec<u8>| fs::write(folder.join(name), bytes).map_err(|why| why.to_string());
    for case in 0..count {
        let edition = editions[(case / ROUND) as usize % editions.len()];
        let sheet = any_sheet(&mut Rng::new(seed.wrapping_mul(0x1_0000_0001) ^ case << 20), edition, case % ROUND);
        write(format!("{case}.sheet"), written(&sheet))?;
        write(format!("{case}.rust"), trained(sheet))?;
    }
    Ok(())
}

/// Small sheets with ties, empty tiles and extremes of S and C. Each tenth is large, each fortieth as large as can be and like
/// artwork; two in forty have no samples, or as many as can be and some more.
fn any_sheet(rng: &mut Rng, edition: Edition, case: u64) -> Sheet {
    let full = case == 39;
    let colours = if full { Colours::Artwork } else { Colours::any(rng, 2.0) };
    let (s, c) = if full { (16, 16) } else { (jobs::sixteen(rng), jobs::sixteen(rng)) };
    let palette = jobs::palette(rng, s, c, &colours, 2.0);
    let tiles = match case {
        9 | 29 => rng.among(100, 400),
        19 | 39 => 1_024,
        _ => rng.among(1, 20),
    };
    let most = MOST_SAMPLES / edition.size;
    let tiles = match case {
        7 => vec![Tile::default(); tiles],
        17 => {
            let tile = Tile { colours: vec![colours.one(rng, 2.0)], counts: vec![edition.size as u32] };
            vec![tile; rng.among(most, most + 2)]
        }
        _ => fitting(edition, s * c, jobs::tiles(rng, edition.size, tiles, &colours)),
    };
    let weight = if full { 2.15 } else { jobs::weight(rng) };
    Sheet { edition, weight, palette, tiles }
}

/// The tiles, with those empty that a sheet has no room for or whose samples would be too many.
fn fitting(edition: Edition, palette: usize, mut tiles: Vec<Tile>) -> Vec<Tile> {
    let mut bits = 8 * MOST_BYTES - edition.bits_without_colours(palette, tiles.len());
    let mut samples = MOST_SAMPLES;
    for tile in &mut tiles {
        let (wide, many) = (edition.colour_bits() * tile.counts.len(), tile.counts.iter().sum::<u32>() as usize);
        if wide > bits || many > samples {
            *tile = Tile::default();
            continue;
        }
        (bits, samples) = (bits - wide, samples - many);
    }
    tiles
}

/// The sheet with the palette that the Rust trains, or the number that its samples get.
fn trained(sheet: Sheet) -> Vec<u8> {
    let samples = samples(&sheet.tiles);
    match samples.len() {
        0 => return b"refused 1\n".to_vec(),
        1..=MOST_SAMPLES => {}
        _ => return b"refused 2\n".to_vec(),
    }
    let Sheet { edition, weight, palette, tiles } = sheet;
    let job = Job { size: edition.size, s: palette.len(), c: palette[0].len(), weight, tiles, samples };
    let hints = vec![0; job.tiles.len()];
    let ran = answers::rust(weight).run(&job, &hints, 0, Box::new(|_, _, colour| console::reduced(colour)));
    written(&Sheet { edition, weight, palette: ran.result, tiles: job.tiles })
}

fn samples(tiles: &[Tile]) -> Vec<Sample> {
    let mut samples = Vec::new();
    for (tile, data) in tiles.iter().enumerate() {
        for (place, &count) in data.counts.iter().enumerate() {
            samples.extend((0..count).map(|_| Sample { tile, place }));
        }
    }
    samples
}
