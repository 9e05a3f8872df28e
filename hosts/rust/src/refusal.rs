//! Why a call was refused: the answer numbers of docs/SCOPE.md, three of them with the colour at fault.

use std::fmt;
use std::mem::discriminant;

use crate::entry::{Entry, EntryKind};
use crate::job::Job;

/// Why a call was refused. A refused call made no draw and wrote nothing.
///
/// Of several faults the first in the order 2, 3, 1, 4, 5, 6, 7, 8, 20, 10, 16, 9, 11, 17 decides, and of several bad colours
/// the first. [`SameColour`](Refusal::SameColour) and [`EmptyTile`](Refusal::EmptyTile) belong to calls that are not
/// exported to hosts; they stand here because the table is one.
///
/// ```
/// use dunkafeto::Refusal;
///
/// assert_eq!((Refusal::Moment.number(), Refusal::Moment.index()), (11, 0));
/// assert_eq!(Refusal::Moment.to_string(), "refused 11: the call does not belong to this moment of the run");
/// ```
#[derive(Clone, Copy, Debug, PartialEq, Eq, Hash)]
pub enum Refusal {
    /// 1: there are no samples.
    NoSamples,
    /// 2: the tile size is neither 64 nor 256, S or C is not 1 to 16, T is not 1 to 1,024, or n is above 16,384.
    Sizes,
    /// 3: a slice is longer or shorter than the sizes ask.
    Lengths,
    /// 4: the weight is not above 0, is above 16, or is NaN.
    Weight,
    /// 5: tiles leave a gap or overlap, one has more colours than the tile size, or all have more than 16,384 or not as many
    /// as are lent.
    Tiles,
    /// 6: a colour is counted 0 times, or a tile's counts sum to more than the tile size.
    Counts,
    /// 7: a component of a job's colour is above 2 in magnitude or not finite.
    JobColour {
        /// In [`assign`](crate::assign) and in sheets 0 to S·C−1 for the palette and S·C + k for colour k of the tiles; in the
        /// calls of a run k for colour k of the tiles.
        index: usize,
        /// The same colour, named.
        entry: Entry,
    },
    /// 8: a sample's tile is not there, or has no such colour.
    Samples,
    /// 9: an entry of the order is n or more.
    Order,
    /// 10: the record breaks one of its rules.
    Record,
    /// 11: the call does not belong to this moment: advance at a stop or finish, hand-in elsewhere than at a stop, result
    /// before the finish.
    Moment,
    /// 12: the first four bytes are not a sheet's, or the edition is neither 1 nor 2.
    SheetOpening,
    /// 13: a sheet ends too soon, goes on by a bit or a byte, or has more than 65,536 bytes.
    SheetBytes,
    /// 14: grouping was given pixels of the same bytes whose Oklab bits differ.
    SameColour,
    /// 15: the single fit's tile has no colour.
    EmptyTile,
    /// 16: a component that a run holds is above 4 in magnitude or not finite.
    WorkingColour {
        /// 0 to S·C−1 for the first palette, S·C + k for colour k of the second, which is looked at in stage 2 alone.
        index: usize,
        /// The same colour, named.
        entry: Entry,
    },
    /// 17: a component handed in is above 2 in magnitude or not finite.
    HandedInColour {
        /// The place among the colours handed in.
        index: usize,
        /// The same colour, named.
        entry: Entry,
    },
    /// 20: the last word of the record is not made of the job's S, C, T and n: the run is another job's. Two jobs of equal
    /// sizes are still not told apart.
    OtherSizes,
    /// A number that the table of this edition does not have: the library is of a later one.
    Unknown {
        /// The number.
        number: u8,
        /// The index that came with it.
        index: usize,
    },
}

/// For the table alone: each refusal has its own.
const ANY: Entry = Entry::of_palette(EntryKind::Palette, 0, 1);

/// Each number with its refusal and message. 18 and 19 are not in use.
const TABLE: [(u8, Refusal, &str); 18] = [
    (1, Refusal::NoSamples, "there are no samples"),
    (
        2,
        Refusal::Sizes,
        "too few or too many subpalettes, colours, tiles or samples, or a tile size other than 64 and 256",
    ),
    (3, Refusal::Lengths, "a lent slice has the wrong length"),
    (4, Refusal::Weight, "the weight is not above 0 and at most 16"),
    (
        5,
        Refusal::Tiles,
        "the tile table is not consecutive, a tile has more colours than its size (64 or 256), or the total is wrong",
    ),
    (6, Refusal::Counts, "a count is 0, or a tile's counts sum to more than its size (64 or 256)"),
    (7, Refusal::JobColour { index: 0, entry: ANY }, "a colour's component is too large or not finite"),
    (8, Refusal::Samples, "a sample names no tile or no colour of it"),
    (9, Refusal::Order, "an entry of the order is too large"),
    (10, Refusal::Record, "the run's record breaks its rules"),
    (11, Refusal::Moment, "the call does not belong to this moment of the run"),
    (12, Refusal::SheetOpening, "the sheet's opening is wrong, or its edition is neither 1 nor 2"),
    (13, Refusal::SheetBytes, "the sheet is cut short, has a spare bit set or bytes after it, or is too large"),
    (14, Refusal::SameColour, "equal reduced colours have different Oklab bits"),
    (15, Refusal::EmptyTile, "the tile is empty"),
    (16, Refusal::WorkingColour { index: 0, entry: ANY }, "a working colour's component is too large or not finite"),
    (17, Refusal::HandedInColour { index: 0, entry: ANY }, "a handed-in colour's component is too large or not finite"),
    (20, Refusal::OtherSizes, "the run's record belongs to a job of other sizes"),
];

impl Refusal {
    /// The refusal that a call tells by number and index; none has the number 0, which says done. `palette` is how many palette
    /// colours the call counts among those of the job, before the tiles' own.
    pub(crate) fn told(number: u8, index: usize, job: &Job, palette: usize) -> Option<Self> {
        if number == 0 {
            return None;
        }
        let handed_in = |colour| Entry::of_palette(EntryKind::HandedIn, colour, job.colours_each);
        Some(match TABLE.iter().find(|row| row.0 == number).map(|row| row.1) {
            None => Refusal::Unknown { number, index },
            Some(Refusal::JobColour { .. }) => Refusal::JobColour { index, entry: Entry::of_job(job, index, palette) },
            Some(Refusal::WorkingColour { .. }) => {
                Refusal::WorkingColour { index, entry: Entry::of_memory(job, index) }
            }
            Some(Refusal::HandedInColour { .. }) => Refusal::HandedInColour { index, entry: handed_in(index) },
            Some(other) => other,
        })
    }

    /// Its number in the scope's table.
    pub fn number(self) -> u8 {
        match self {
            Refusal::Unknown { number, .. } => number,
            known => row(known).0,
        }
    }

    /// The index of the colour at fault, as the library counts; 0 where no colour is.
    pub fn index(self) -> usize {
        match self {
            Refusal::JobColour { index, .. }
            | Refusal::WorkingColour { index, .. }
            | Refusal::HandedInColour { index, .. }
            | Refusal::Unknown { index, .. } => index,
            _ => 0,
        }
    }

    /// The colour at fault, where one is.
    pub fn entry(self) -> Option<Entry> {
        match self {
            Refusal::JobColour { entry, .. }
            | Refusal::WorkingColour { entry, .. }
            | Refusal::HandedInColour { entry, .. } => Some(entry),
            _ => None,
        }
    }

    /// What is wrong, in words.
    pub fn message(self) -> &'static str {
        match self {
            Refusal::Unknown { .. } => "the library refused with a number that this crate does not know",
            known => row(known).2,
        }
    }
}

/// The row of a known refusal in the table, whatever its colour.
fn row(known: Refusal) -> &'static (u8, Refusal, &'static str) {
    TABLE.iter().find(|row| discriminant(&row.1) == discriminant(&known)).expect("the table has every refusal")
}

impl fmt::Display for Refusal {
    fn fmt(&self, f: &mut fmt::Formatter<'_>) -> fmt::Result {
        write!(f, "refused {}: {}", self.number(), self.message())?;
        self.entry().map_or(Ok(()), |entry| write!(f, ": {entry}"))
    }
}

impl std::error::Error for Refusal {}

#[cfg(test)]
mod tests {
    use super::*;
    use crate::job::{Tiles, SMALL_TILE};

    /// By a call on a job of two subpalettes of three colours, and tiles of two colours, none, and three.
    fn told(number: u8, index: usize, palette: usize) -> Option<Refusal> {
        let mut tiles = Tiles::new(SMALL_TILE);
        [2, 0, 3].iter().for_each(|&colours| tiles.push(vec![([0.0; 3], 1); colours]));
        Refusal::told(number, index, &tiles.job(2, 3, 1.0, &[], 0), palette)
    }

    #[test]
    fn numbers_and_refusals_go_both_ways() {
        assert_eq!(told(0, 5, 6), None);
        for number in 1..=255 {
            assert_eq!(told(number, 5, 6).unwrap().number(), number);
        }
    }

    #[test]
    fn only_colours_have_an_index() {
        for (number, ..) in TABLE {
            let refusal = told(number, 5, 6).unwrap();
            let named = matches!(number, 7 | 16 | 17);
            assert_eq!((refusal.index(), refusal.entry().is_some()), (if named { 5 } else { 0 }, named), "{number}");
        }
        for number in [18, 19, 21, 255] {
            assert_eq!(told(number, 5, 6), Some(Refusal::Unknown { number, index: 5 }));
        }
    }

    /// The header has the same messages, so that both hosts say the same.
    #[test]
    fn every_message_is_its_own_and_the_header_s() {
        let header = include_str!("../../../include/dunkafeto.h");
        for (number, _, said) in TABLE {
            assert_eq!(told(number, 0, 0).unwrap().message(), said);
            assert!(TABLE.iter().all(|other| other.0 == number || other.2 != said), "{number}");
            assert!(header.contains(&format!("\"{said}\",\n")), "{number}");
        }
    }

    #[test]
    fn colours_in_words() {
        for (number, index, palette, words) in [
            (7, 0, 6, "palette colour 0 (subpalette 0, colour 0)"),
            (7, 5, 6, "palette colour 5 (subpalette 1, colour 2)"),
            (7, 6, 6, "tile 0, colour 0"),
            (7, 7, 6, "tile 0, colour 1"),
            (7, 8, 6, "tile 2, colour 0"),
            (7, 10, 6, "tile 2, colour 2"),
            (7, 0, 0, "tile 0, colour 0"),
            (7, 4, 0, "tile 2, colour 2"),
            (16, 0, 0, "working colour 0 (subpalette 0, colour 0)"),
            (16, 5, 0, "working colour 5 (subpalette 1, colour 2)"),
            (16, 6, 0, "kept colour 0 (subpalette 0, colour 0)"),
            (16, 10, 0, "kept colour 4 (subpalette 1, colour 1)"),
            (17, 3, 0, "handed-in colour 3 (subpalette 1, colour 0)"),
        ] {
            let refusal = told(number, index, palette).unwrap();
            assert_eq!(refusal.to_string(), format!("refused {number}: {}: {words}", refusal.message()));
            assert_eq!(refusal.index(), index);
        }
    }
}
