//! The fit sheet of docs/SCOPE.md in its two editions, written.

use super::{Palette, Tile};

/// A sheet has at most so many bytes.
pub const MOST_BYTES: usize = 65_536;

/// What an edition has of its own.
#[derive(Clone, Copy, Debug)]
pub struct Edition {
    pub number: u32,
    /// A tile has at most so many colours, and its counts add up to no more.
    pub size: usize,
    /// The bits of a tile's number of colours.
    pub length_bits: usize,
    /// The bits of a count less 1.
    pub count_bits: usize,
}

pub const EDITIONS: [Edition; 2] = [
    Edition { number: 1, size: 64, length_bits: 7, count_bits: 6 },
    Edition { number: 2, size: 256, length_bits: 9, count_bits: 8 },
];

impl Edition {
    /// The one that a tile size names.
    pub fn of(size: usize) -> Option<Self> {
        EDITIONS.into_iter().find(|edition| edition.size == size)
    }

    /// The bits of a sheet with so many colours in its palette and so many tiles, before the colours of any tile.
    pub fn bits_without_colours(self, palette: usize, tiles: usize) -> usize {
        32 + 3 * 4 + 10 + 32 + 96 * palette + self.length_bits * tiles
    }

    /// The bits of one colour of a tile, with its count.
    pub fn colour_bits(self) -> usize {
        self.count_bits + 96
    }
}

/// What a sheet holds.
#[derive(Clone, Debug)]
pub struct Sheet {
    pub edition: Edition,
    pub weight: f32,
    pub palette: Palette,
    pub tiles: Vec<Tile>,
}

/// The bytes of a sheet, however many.
pub fn written(sheet: &Sheet) -> Vec<u8> {
    let Sheet { edition, weight, palette, tiles } = sheet;
    let mut bits: Vec<bool> = Vec::new();
    let mut field = |k: usize, value: u32| bits.extend((0..k).rev().map(|i| value >> i & 1 == 1));
    field(32, 0x5446_4954);
    field(4, edition.number);
    field(4, palette.len() as u32 - 1);
    field(4, palette[0].len() as u32 - 1);
    field(10, tiles.len() as u32 - 1);
    field(32, weight.to_bits());
    palette.iter().flatten().flatten().for_each(|component| field(32, component.to_bits()));
    for tile in tiles {
        field(edition.length_bits, tile.counts.len() as u32);
        for (colour, count) in tile.colours.iter().zip(&tile.counts) {
            field(edition.count_bits, count - 1);
            colour.iter().for_each(|component| field(32, component.to_bits()));
        }
    }
    bits.resize(bits.len().next_multiple_of(8), false);
    bits.chunks(8).map(|byte| byte.iter().fold(0, |value, &bit| value << 1 | u8::from(bit))).collect()
}
