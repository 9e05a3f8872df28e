//! The fit sheet: a palette and its tiles in a file of bits. Edition 1 is for tiles of 64 pixels, edition 2 for tiles of 256.

use crate::entry::{Entry, EntryKind};
use crate::job::{Colour, Job, Sample, Tiles, LARGE_TILE, SMALL_TILE};
use crate::refusal::Refusal;

/// A sheet has at most so many bytes.
pub const MOST_BYTES: usize = 65_536;

const OPENING: u32 = 0x5446_4954;

/// What the editions differ in.
#[derive(Clone, Copy)]
struct Edition {
    number: u32,
    /// Pixels of a tile.
    size: usize,
    /// Bits of a tile's number of colours.
    colours: usize,
    /// Bits of a count less 1.
    count: usize,
}

const EDITION_1: Edition = Edition { number: 1, size: SMALL_TILE, colours: 7, count: 6 };
const EDITION_2: Edition = Edition { number: 2, size: LARGE_TILE, colours: 9, count: 8 };

impl Edition {
    fn of_size(size: usize) -> Self {
        if size == EDITION_2.size {
            EDITION_2
        } else {
            EDITION_1
        }
    }

    /// By the four bits behind the opening. What has neither number there is read as edition 1, whose reading says what is
    /// wrong.
    fn of_bytes(bytes: &[u8]) -> Self {
        match bytes.get(4) {
            Some(byte) if u32::from(byte >> 4) == EDITION_2.number => EDITION_2,
            _ => EDITION_1,
        }
    }
}

/// What a sheet holds: S subpalettes of C colours, the weight, and tiles with their colours and counts.
///
/// ```
/// use dunkafeto::{Sheet, Tiles, LARGE_TILE};
///
/// let mut tiles = Tiles::new(LARGE_TILE);
/// tiles.push([([0.25, 0.0, 0.0], 4)]);
/// let sheet = Sheet { subpalettes: 1, colours_each: 1, weight: 1.0, palette: vec![[0.0; 3]], tiles };
/// let bytes = sheet.write()?;
/// assert_eq!(Sheet::read(&bytes)?, sheet);
/// # Ok::<(), dunkafeto::Refusal>(())
/// ```
#[derive(Clone, Debug, PartialEq)]
pub struct Sheet {
    /// S, 1 to 16.
    pub subpalettes: usize,
    /// C, 1 to 16.
    pub colours_each: usize,
    /// Above 0 and at most 16.
    pub weight: f32,
    /// S·C colours, subpalette by subpalette.
    pub palette: Vec<Colour>,
    /// The tiles, 1 to 1,024. Their size, [`SMALL_TILE`] or [`LARGE_TILE`], says of which edition the sheet is.
    pub tiles: Tiles,
}

impl Sheet {
    /// Reads a sheet of either edition, or gives its first fault in the order of its fields: 4, 5, 6, 7 with the colour, 12
    /// or 13.
    pub fn read(bytes: &[u8]) -> Result<Self, Refusal> {
        if bytes.len() > MOST_BYTES {
            return Err(Refusal::SheetBytes);
        }
        let edition = Edition::of_bytes(bytes);
        let mut bits = Reader { edition, bytes, at: 0 };
        if bits.field(32)? != OPENING || bits.field(4)? != edition.number {
            return Err(Refusal::SheetOpening);
        }
        let [s, c, t] = [bits.field(4)? + 1, bits.field(4)? + 1, bits.field(10)? + 1];
        let weight = f32::from_bits(bits.field(32)?);
        if !(weight > 0.0 && weight <= 16.0) {
            return Err(Refusal::Weight);
        }
        let [s, c, t] = [s, c, t].map(|size| size as usize);
        let of_palette = |colour| Entry::of_palette(EntryKind::Palette, colour, c);
        let palette = (0..s * c).map(|index| bits.colour(index, of_palette(index))).collect::<Result<_, _>>()?;
        let (mut tiles, mut first) = (Tiles::new(edition.size), 0);
        for part in 0..t {
            let tile = bits.tile(s * c, part, first)?;
            first += tile.len();
            tiles.push(tile);
        }
        bits.end()?;
        Ok(Sheet { subpalettes: s, colours_each: c, weight, palette, tiles })
    }

    /// The sheet's bytes, in the edition of its tiles' size. What [`assign`](crate::assign) refuses is refused here with the
    /// same number, 2 to 7; then a sheet of more than 65,536 bytes with 13.
    pub fn write(&self) -> Result<Vec<u8>, Refusal> {
        crate::assign(&self.job(&[], 0), &self.palette, &mut vec![0; self.tiles.len()])?;
        let edition = Edition::of_size(self.tiles.size());
        let mut bits = Writer::default();
        bits.field(32, OPENING);
        bits.field(4, edition.number);
        bits.field(4, self.subpalettes as u32 - 1);
        bits.field(4, self.colours_each as u32 - 1);
        bits.field(10, self.tiles.len() as u32 - 1);
        bits.field(32, self.weight.to_bits());
        self.palette.iter().for_each(|colour| bits.colour(colour));
        for (colours, counts) in self.tiles.iter() {
            bits.field(edition.colours, counts.len() as u32);
            for (colour, count) in colours.iter().zip(counts) {
                bits.field(edition.count, count - 1);
                bits.colour(colour);
            }
        }
        if bits.bytes.len() > MOST_BYTES {
            return Err(Refusal::SheetBytes);
        }
        Ok(bits.bytes)
    }

    /// The job of training this sheet's palette anew.
    pub fn job<'a>(&'a self, samples: &'a [Sample], seed: u64) -> Job<'a> {
        self.tiles.job(self.subpalettes, self.colours_each, self.weight, samples, seed)
    }
}

/// Bits of a sheet from the first on, most significant first.
struct Reader<'a> {
    edition: Edition,
    bytes: &'a [u8],
    at: usize,
}

impl Reader<'_> {
    /// A field of at most 32 bits.
    fn field(&mut self, width: usize) -> Result<u32, Refusal> {
        let mut value = 0;
        for at in self.at..self.at + width {
            let byte = self.bytes.get(at / 8).ok_or(Refusal::SheetBytes)?;
            value = value << 1 | u32::from(byte >> (7 - at % 8) & 1);
        }
        self.at += width;
        Ok(value)
    }

    fn colour(&mut self, index: usize, entry: Entry) -> Result<Colour, Refusal> {
        let mut colour = [0.0; 3];
        for component in &mut colour {
            *component = f32::from_bits(self.field(32)?);
            if component.is_nan() || component.abs() > 2.0 {
                return Err(Refusal::JobColour { index, entry });
            }
        }
        Ok(colour)
    }

    /// The tile of a place in the table, after so many colours of the palette and `first` of the tiles before it.
    fn tile(&mut self, palette: usize, part: usize, first: usize) -> Result<Vec<(Colour, u32)>, Refusal> {
        let edition = self.edition;
        let colours = self.field(edition.colours)? as usize;
        if colours > edition.size {
            return Err(Refusal::Tiles);
        }
        let (mut tile, mut sum) = (Vec::new(), 0);
        for place in 0..colours {
            let count = self.field(edition.count)? + 1;
            sum += count;
            if sum as usize > edition.size {
                return Err(Refusal::Counts);
            }
            tile.push((self.colour(palette + first + place, Entry::of_tile(part, first, place))?, count));
        }
        Ok(tile)
    }

    /// Spare bits are clear, and nothing follows.
    fn end(&mut self) -> Result<(), Refusal> {
        let spare = self.at.next_multiple_of(8) - self.at;
        if self.field(spare)? == 0 && self.at == 8 * self.bytes.len() {
            Ok(())
        } else {
            Err(Refusal::SheetBytes)
        }
    }
}

/// Bits written, most significant first; those to the end of the last byte are clear.
#[derive(Default)]
struct Writer {
    bytes: Vec<u8>,
    used: usize,
}

impl Writer {
    fn field(&mut self, width: usize, value: u32) {
        for place in (0..width).rev() {
            if self.used % 8 == 0 {
                self.bytes.push(0);
            }
            *self.bytes.last_mut().unwrap() |= ((value >> place & 1) as u8) << (7 - self.used % 8);
            self.used += 1;
        }
    }

    fn colour(&mut self, colour: &Colour) {
        colour.iter().for_each(|component| self.field(32, component.to_bits()));
    }
}
