//! The fit sheet of docs/SCOPE.md, read independently of our definitions, as terms/ writes it.

pub mod fitted;
pub mod trained;

use terms::Tile;
use terms::sheet::{Edition, MOST_BYTES, Sheet};

use crate::table::{self, Refusal};

/// Bits of a sheet from the first on, most significant first.
struct Bits<'a> {
    bytes: &'a [u8],
    at: usize,
    /// Colours read before, of palette and tiles alike.
    colours: usize,
}

impl Bits<'_> {
    /// A field of k bits; one that is cut short is 13.
    fn field(&mut self, k: usize) -> Result<u32, Refusal> {
        if self.at + k > 8 * self.bytes.len() {
            return refused(13);
        }
        let mut value = 0;
        for _ in 0..k {
            let bit = self.bytes[self.at / 8] >> (7 - self.at % 8) & 1;
            value = value << 1 | u32::from(bit);
            self.at += 1;
        }
        Ok(value)
    }

    fn colour(&mut self) -> Result<terms::Colour, Refusal> {
        let mut colour = [0.0; 3];
        for component in &mut colour {
            *component = f32::from_bits(self.field(32)?);
            if !table::within(&[*component], 2.0) {
                return Err(Refusal { number: 7, index: self.colours });
            }
        }
        self.colours += 1;
        Ok(colour)
    }

    fn tile(&mut self, edition: Edition) -> Result<Tile, Refusal> {
        let n = self.field(edition.length_bits)? as usize;
        if n > edition.size {
            return refused(5);
        }
        let mut tile = Tile::default();
        for _ in 0..n {
            tile.counts.push(self.field(edition.count_bits)? + 1);
            if tile.counts.iter().sum::<u32>() as usize > edition.size {
                return refused(6);
            }
            tile.colours.push(self.colour()?);
        }
        Ok(tile)
    }
}

/// A fault that names no entry.
fn refused<T>(number: u32) -> Result<T, Refusal> {
    Err(number.into())
}

/// By the edition that it names, as the programs read it: the second where the four bits behind the opening say so, else the first.
pub fn read_either(bytes: &[u8]) -> Result<Sheet, Refusal> {
    let second = bytes.get(4).is_some_and(|byte| byte >> 4 == 2);
    read(if second { 256 } else { 64 }, bytes)
}

/// Told a tile size: the sheet of that edition, or the number of its first fault in field order, with the index of a colour.
pub fn read(size: usize, bytes: &[u8]) -> Result<Sheet, Refusal> {
    let Some(edition) = Edition::of(size) else { return refused(2) };
    if bytes.len() > MOST_BYTES {
        return refused(13);
    }
    let mut bits = Bits { bytes, at: 0, colours: 0 };
    if bits.field(32)? != 0x5446_4954 {
        return refused(12);
    }
    if bits.field(4)? != edition.number {
        return refused(12);
    }
    let (s, c, t) = (bits.field(4)? + 1, bits.field(4)? + 1, bits.field(10)? + 1);
    let weight = f32::from_bits(bits.field(32)?);
    if !table::weight(weight) {
        return refused(4);
    }
    let palette = (0..s).map(|_| (0..c).map(|_| bits.colour()).collect()).collect::<Result<_, _>>()?;
    let tiles = (0..t).map(|_| bits.tile(edition)).collect::<Result<_, _>>()?;
    while bits.at % 8 != 0 {
        if bits.field(1)? != 0 {
            return refused(13);
        }
    }
    if bits.at / 8 != bytes.len() {
        return refused(13);
    }
    Ok(Sheet { edition, weight, palette, tiles })
}

/// The scope's example.
pub fn example(edition: Edition) -> Sheet {
    let tile = |l: f32, count: u32| Tile { colours: vec![[l, 0.0, 0.0]], counts: vec![count] };
    Sheet {
        edition,
        weight: 1.0,
        palette: vec![vec![[0.0; 3]], vec![[1.0, 0.0, 0.0]]],
        tiles: vec![tile(0.25, 4), Tile::default(), tile(0.5, 2), tile(1.0, 1)],
    }
}
