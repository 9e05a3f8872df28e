//! What the program `fit` prints for a sheet, by the reading here and the Rust's fits; the runner-up by a plain rule.

use std::fmt::Write;

use super::read_either;
use crate::reading::fits::next_best;

pub fn fitted(bytes: &[u8]) -> String {
    let sheet = match read_either(bytes) {
        Ok(sheet) => sheet,
        Err(refusal) => return refused(refusal.number),
    };
    let rust = answers::rust(sheet.weight);
    let s = sheet.palette.len();
    let mut text = format!("tiles {} subpalettes {s}\n", sheet.tiles.len());
    let (mut load, mut blank) = (vec![0; s], 0);
    for (i, tile) in sheet.tiles.iter().enumerate() {
        let (sub, dist, next) = if tile.counts.is_empty() {
            blank += 1;
            (0, 0.0, 0)
        } else {
            let fit = rust.best_fit(&sheet.palette, tile, &[0])[0];
            load[fit.index] += 1;
            (fit.index, fit.dist, next_best(&sheet.palette, tile, sheet.weight, fit.index))
        };
        writeln!(text, "tile {i} sub {sub} dist {:08x} next {next}", f32::to_bits(dist)).unwrap();
    }
    for (i, tiles) in load.iter().enumerate() {
        writeln!(text, "load {i} {tiles}").unwrap();
    }
    writeln!(text, "blank {blank}").unwrap();
    text
}

/// A program says no index.
pub fn refused(number: u32) -> String {
    format!("refused {number}\n")
}
