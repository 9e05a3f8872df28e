//! The colour that a refusal names. The library counts colours through whole tables; a person looks for a tile or a subpalette,
//! and a place in it.

use std::fmt;

use crate::job::{Job, Tile};

/// What an [`Entry`] is a colour of.
#[derive(Clone, Copy, Debug, PartialEq, Eq, Hash)]
pub enum EntryKind {
    /// The palette that was lent to [`assign`](crate::assign), or that of a sheet.
    Palette,
    /// The tiles: [`Job::colours`].
    Tile,
    /// The palette that a run works on: [`Memory::palette`](crate::Memory::palette).
    Working,
    /// The palette that a run keeps while stage 2 lasts: [`Memory::least`](crate::Memory::least).
    Kept,
    /// The colours that were handed in.
    HandedIn,
}

/// The first bad colour, by its places, which count from 0.
///
/// ```
/// use dunkafeto::{Entry, EntryKind, Refusal, Tiles, Trainer, SMALL_TILE};
///
/// let mut tiles = Tiles::new(SMALL_TILE);
/// tiles.push([([0.2, 0.0, 0.0], 32), ([0.9, 0.0, 0.0], 32)]);
/// tiles.push([([0.6, 0.2, 0.1], 60), ([0.3, f32::NAN, 0.1], 4)]);
/// let samples = tiles.samples();
/// let refusal = Trainer::start(tiles.job(2, 2, 2.15, &samples, 0)).unwrap_err();
/// let entry = Entry { kind: EntryKind::Tile, colour: 3, part: 1, place: 1 };
/// assert_eq!(refusal, Refusal::JobColour { index: 3, entry });
/// assert_eq!(entry.to_string(), "tile 1, colour 1");
/// assert_eq!(refusal.to_string(), "refused 7: a colour's component is too large or not finite: tile 1, colour 1");
/// ```
#[derive(Clone, Copy, Debug, PartialEq, Eq, Hash)]
pub struct Entry {
    /// What it is a colour of.
    pub kind: EntryKind,
    /// Its place among all colours of that.
    pub colour: usize,
    /// Its tile or its subpalette.
    pub part: usize,
    /// Its place in that tile or subpalette.
    pub place: usize,
}

impl Entry {
    /// A colour of a palette whose subpalettes have so many colours each.
    pub(crate) const fn of_palette(kind: EntryKind, colour: usize, colours_each: usize) -> Self {
        Entry { kind, colour, part: colour / colours_each, place: colour % colours_each }
    }

    /// A colour of a tile that begins with the colour `first`.
    pub(crate) fn of_tile(part: usize, first: usize, place: usize) -> Self {
        Entry { kind: EntryKind::Tile, colour: first + place, part, place }
    }

    /// A job's colour, for a call that counts so many palette colours before those of the tiles: S·C or none.
    pub(crate) fn of_job(job: &Job, index: usize, palette: usize) -> Self {
        match index.checked_sub(palette) {
            None => Entry::of_palette(EntryKind::Palette, index, job.colours_each),
            Some(colour) => of_tiles(job.tiles, colour),
        }
    }

    /// A colour of a run's memory, where the second palette's colours follow the first's.
    pub(crate) fn of_memory(job: &Job, index: usize) -> Self {
        match index.checked_sub(job.palette_len()) {
            None => Entry::of_palette(EntryKind::Working, index, job.colours_each),
            Some(colour) => Entry::of_palette(EntryKind::Kept, colour, job.colours_each),
        }
    }
}

/// Tiles are consecutive where a colour is refused, so that it stands in the last one that does not begin after it.
fn of_tiles(tiles: &[Tile], colour: usize) -> Entry {
    let part = tiles.iter().take_while(|tile| tile.first as usize <= colour).count().saturating_sub(1);
    let first = tiles.get(part).map_or(0, |tile| tile.first as usize);
    Entry::of_tile(part, first, colour - first)
}

impl fmt::Display for Entry {
    fn fmt(&self, f: &mut fmt::Formatter<'_>) -> fmt::Result {
        let Entry { kind, colour, part, place } = self;
        let which = match kind {
            EntryKind::Tile => return write!(f, "tile {part}, colour {place}"),
            EntryKind::Palette => "palette",
            EntryKind::Working => "working",
            EntryKind::Kept => "kept",
            EntryKind::HandedIn => "handed-in",
        };
        write!(f, "{which} colour {colour} (subpalette {part}, colour {place})")
    }
}
