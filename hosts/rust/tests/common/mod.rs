//! Jobs from a seed, for the tests.
#![allow(dead_code)] // each test program uses some of it

use dunkafeto::{
    checksum, console, Colour, Job, Moment, Sample, Sheet, Tiles, Trainer, LARGE_TILE, MOST_SAMPLES, MOST_TILES,
    SMALL_TILE,
};

/// The tile sizes that there are.
pub const SIZES: [usize; 2] = [SMALL_TILE, LARGE_TILE];

/// SplitMix64.
pub struct Rng(pub u64);

impl Rng {
    pub fn bits(&mut self) -> u64 {
        self.0 = self.0.wrapping_add(0x9E37_79B9_7F4A_7C15);
        let z = (self.0 ^ self.0 >> 30).wrapping_mul(0xBF58_476D_1CE4_E5B9);
        let z = (z ^ z >> 27).wrapping_mul(0x94D0_49BB_1331_11EB);
        z ^ z >> 31
    }

    pub fn below(&mut self, n: usize) -> usize {
        (self.bits() % n as u64) as usize
    }

    pub fn among(&mut self, least: usize, most: usize) -> usize {
        least + self.below(most - least + 1)
    }

    /// As artwork has them; coarse ones tie.
    pub fn colour(&mut self) -> Colour {
        let mut step = |least: i32, steps: usize| (least + self.below(steps) as i32) as f32 / 64.0;
        [step(0, 65), step(-26, 53), step(-26, 53)]
    }
}

/// The next float above a positive one.
pub fn above(x: f32) -> f32 {
    f32::from_bits(x.to_bits() + 1)
}

/// What a job borrows.
pub struct Case {
    pub subpalettes: usize,
    pub colours_each: usize,
    pub weight: f32,
    pub tiles: Tiles,
    pub samples: Vec<Sample>,
    pub seed: u64,
}

impl Case {
    /// Of tiles of either size.
    pub fn any(rng: &mut Rng) -> Self {
        let size = SIZES[rng.below(2)];
        Case::of(rng, size)
    }

    pub fn of(rng: &mut Rng, size: usize) -> Self {
        let mut tiles = Tiles::new(size);
        let t = rng.among(1, 12);
        // so many colours, each so often: 8 times 8 are 64, 16 times 16 are 256
        let most = if size == LARGE_TILE { 16 } else { 8 };
        for i in 0..t {
            // the last is never empty, so that there is a sample
            let colours = if i + 1 < t { rng.below(most + 1) } else { rng.among(1, most) };
            tiles.push((0..colours).map(|_| (rng.colour(), rng.among(1, most) as u32)).collect::<Vec<_>>());
        }
        if size == LARGE_TILE {
            tiles.push((0..size).map(|_| (rng.colour(), 1)).collect::<Vec<_>>());
            tiles.push([(rng.colour(), size as u32)]);
        }
        let samples = tiles.samples();
        let (subpalettes, colours_each) = (rng.among(1, 5), rng.among(1, 5));
        let weight = [2.15, 1.0, 16.0, 0.125][rng.below(4)];
        Case { subpalettes, colours_each, weight, tiles, samples, seed: rng.bits() }
    }

    pub fn job(&self) -> Job<'_> {
        self.tiles.job(self.subpalettes, self.colours_each, self.weight, &self.samples, self.seed)
    }
}

/// S = C = 16, 1,024 tiles, 16,384 colours, each with a count of 1, and samples: 16 in each tile, or of large tiles 256 in the
/// first ones and none in the others.
pub fn largest(size: usize) -> Case {
    let mut rng = Rng(16);
    let mut tiles = Tiles::new(size);
    let each = if size == LARGE_TILE { LARGE_TILE } else { 16 };
    for tile in 0..MOST_TILES {
        let colours = if tile < MOST_SAMPLES / each { each } else { 0 };
        tiles.push((0..colours).map(|_| (rng.colour(), 1)).collect::<Vec<_>>());
    }
    let samples = tiles.samples();
    Case { subpalettes: 16, colours_each: 16, weight: 2.15, tiles, samples, seed: 1 }
}

/// The bytes of a sheet, with the last component NaN of the colours of these indexes: the palette's, then the tiles'.
pub fn spoiled(sheet: &Sheet, bad: &[usize]) -> Vec<u8> {
    let mut bytes = sheet.write().unwrap();
    let colours = sheet.palette.len();
    let mut ends: Vec<usize> = (1..=colours).map(|colour| 86 + 96 * colour).collect();
    let mut at = 86 + 96 * colours;
    let (number, colour) = if sheet.tiles.size() == LARGE_TILE { (9, 104) } else { (7, 102) };
    for (tile, _) in sheet.tiles.iter() {
        at += number;
        ends.extend((1..=tile.len()).map(|place| at + colour * place));
        at += colour * tile.len();
    }
    for bit in bad.iter().flat_map(|&index| ends[index] - 32..ends[index]) {
        bytes[bit / 8] |= 0x80 >> (bit % 8);
    }
    bytes
}

/// A saved run as an earlier release saved it, with six words: another digit in the opening, a record without its last word.
pub fn saved_earlier(saved: &[u8]) -> Vec<u8> {
    let mut bytes = saved[..saved.len() - 16].to_vec();
    bytes[..8].copy_from_slice(b"DNKRUN1\n");
    bytes.extend(checksum(&bytes).to_le_bytes());
    bytes
}

/// What the console shows for the working colours.
pub fn reduced(trainer: &Trainer) -> Vec<Colour> {
    trainer.working().iter().map(|&colour| console::reduced(colour)).collect()
}

/// Goes on to the next stop or the finish.
pub fn to_stop(trainer: &mut Trainer) {
    if trainer.moment() == Moment::Draws {
        trainer.advance(u64::MAX).unwrap();
    }
}
