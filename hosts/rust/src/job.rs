//! What is trained: sizes, weight, tiles with their colours and counts, samples.

/// Pixels of a tile of 8 by 8, as sheets of edition 1 have them.
pub const SMALL_TILE: usize = 64;
/// Pixels of a tile of 16 by 16, as sheets of edition 2 have them.
pub const LARGE_TILE: usize = 256;
/// Subpalettes of a job, and colours of each, at most.
pub const MOST_SUBPALETTES: usize = 16;
/// Colours of a subpalette, at most.
pub const MOST_COLOURS: usize = 16;
/// Tiles of a job, at most.
pub const MOST_TILES: usize = 1_024;
/// Samples of a job, at most.
pub const MOST_SAMPLES: usize = 16_384;

/// A colour in Oklab: l, a, b. In a job each component is finite and of magnitude at most 2.
pub type Colour = [f32; 3];

/// A tile's line in the tile table. The tiles of a job are consecutive from 0.
#[repr(C)]
#[derive(Clone, Copy, Debug, Default, PartialEq, Eq, Hash)]
pub struct Tile {
    /// The place of its first colour among all colours.
    pub first: u32,
    /// How many colours it has, from 0 up to the job's tile size.
    pub colours: u32,
}

/// A sample that training draws.
#[repr(C)]
#[derive(Clone, Copy, Debug, Default, PartialEq, Eq, Hash)]
pub struct Sample {
    /// The tile.
    pub tile: u32,
    /// The colour, by its place in that tile.
    pub place: u32,
}

/// A job, borrowed: its slices are lent to each call and never written.
///
/// Nothing is checked when it is made; every call checks all of it. T is the number of `tiles`, n that of `samples`.
/// [`Tiles::job`] makes one whose tables go together.
#[derive(Clone, Copy, Debug)]
pub struct Job<'a> {
    /// The pixels of a tile, [`SMALL_TILE`] or [`LARGE_TILE`]: it bounds a tile's colours, and the sum of its counts. A run's
    /// record does not hold it, so that it is to be kept with the rest of the job.
    pub tile_size: usize,
    /// S, 1 to 16.
    pub subpalettes: usize,
    /// C, the colours of each subpalette, 1 to 16.
    pub colours_each: usize,
    /// The weight of chroma against lightness in a squared distance, above 0 and at most 16. The trainer that this one
    /// follows has 2.15.
    pub weight: f32,
    /// The tile table, 1 to 1,024 tiles.
    pub tiles: &'a [Tile],
    /// All tiles' colours, tile by tile, at most 16,384.
    pub colours: &'a [Colour],
    /// How many pixels of the tile have the colour, one number for each of `colours`, each at least 1; a tile's sum is at
    /// most `tile_size`.
    pub counts: &'a [u32],
    /// The samples, 1 to 16,384. Calls outside a run do not look at them.
    pub samples: &'a [Sample],
    /// Any number: the same job and seed give the same run.
    pub seed: u64,
}

impl Job<'_> {
    /// The draws that a whole run makes: (S + C + 18) times a tenth of n, rounded down.
    ///
    /// ```
    /// use dunkafeto::{Tiles, SMALL_TILE};
    ///
    /// let mut tiles = Tiles::new(SMALL_TILE);
    /// tiles.push([([0.5, 0.0, 0.0], 25)]);
    /// let samples = tiles.samples();
    /// assert_eq!(tiles.job(2, 2, 1.0, &samples, 0).draws(), 44);
    /// ```
    pub fn draws(&self) -> u64 {
        let rounds = (self.subpalettes as u64).saturating_add(self.colours_each as u64).saturating_add(18);
        rounds.saturating_mul(self.samples.len() as u64 / 10)
    }

    /// S·C, the colours of a palette; 0 where S or C is above its limit, since such a job is refused before any palette is
    /// looked at.
    pub fn palette_len(&self) -> usize {
        let accepted = self.subpalettes <= MOST_SUBPALETTES && self.colours_each <= MOST_COLOURS;
        if accepted {
            self.subpalettes * self.colours_each
        } else {
            0
        }
    }
}

/// Tiles of one size with their colours and counts, in the three tables that a job lends.
///
/// ```
/// use dunkafeto::{Tiles, SMALL_TILE};
///
/// let mut tiles = Tiles::new(SMALL_TILE);
/// tiles.push([([0.25, 0.0, 0.0], 4), ([0.75, 0.1, 0.0], 60)]);
/// tiles.push([]); // an empty tile
/// tiles.push([([0.5, 0.0, -0.1], 64)]);
/// assert_eq!(tiles.len(), 3);
/// assert_eq!(tiles.samples().len(), 128);
/// ```
#[derive(Clone, Debug, PartialEq)]
pub struct Tiles {
    size: usize,
    table: Vec<Tile>,
    colours: Vec<Colour>,
    counts: Vec<u32>,
}

impl Tiles {
    /// No tiles yet; those that are added have so many pixels each: [`SMALL_TILE`] or [`LARGE_TILE`]. Any other size is
    /// refused by each call, with 2.
    pub fn new(size: usize) -> Self {
        Tiles { size, table: Vec::new(), colours: Vec::new(), counts: Vec::new() }
    }

    /// The pixels of a tile.
    pub fn size(&self) -> usize {
        self.size
    }

    /// Adds a tile: its distinct colours, each with the number of pixels that have it.
    pub fn push(&mut self, colours: impl IntoIterator<Item = (Colour, u32)>) {
        let first = self.colours.len();
        for (colour, count) in colours {
            self.colours.push(colour);
            self.counts.push(count);
        }
        // more than 2^32 colours are refused whatever the table says
        let number = |n: usize| u32::try_from(n).unwrap_or(u32::MAX);
        self.table.push(Tile { first: number(first), colours: number(self.colours.len() - first) });
    }

    /// The number of tiles.
    pub fn len(&self) -> usize {
        self.table.len()
    }

    /// Whether there is no tile.
    pub fn is_empty(&self) -> bool {
        self.table.is_empty()
    }

    /// Each tile's colours and counts, in order.
    pub fn iter(&self) -> impl Iterator<Item = (&[Colour], &[u32])> {
        let places = |tile: &Tile| tile.first as usize..(tile.first + tile.colours) as usize;
        self.table.iter().map(move |tile| (&self.colours[places(tile)], &self.counts[places(tile)]))
    }

    /// One sample for each unit of count, in tile order; no more than one above the limit, which is enough for a refusal.
    pub fn samples(&self) -> Vec<Sample> {
        let each = self.iter().zip(0..).flat_map(|((_, counts), tile)| {
            let places = counts.iter().zip(0..);
            places.flat_map(move |(&count, place)| (0..count).map(move |_| Sample { tile, place }))
        });
        each.take(MOST_SAMPLES + 1).collect()
    }

    /// The job of training S subpalettes of C colours for these tiles.
    pub fn job<'a>(
        &'a self,
        subpalettes: usize,
        colours_each: usize,
        weight: f32,
        samples: &'a [Sample],
        seed: u64,
    ) -> Job<'a> {
        let Tiles { size, table, colours, counts } = self;
        Job { tile_size: *size, subpalettes, colours_each, weight, tiles: table, colours, counts, samples, seed }
    }
}
