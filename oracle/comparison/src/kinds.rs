//! The kinds of comparison.

mod calls;
mod edges;
mod entries;
mod groups;
mod leaves;
mod neighbours;
mod own;
mod palettes;
mod programs;
mod runs;
mod seeding;
mod sheets;
mod training;

use terms::TILE_SIZES;
use terms::rng::Rng;

use crate::tally::Tally;

#[derive(Clone, Copy)]
pub struct Kind {
    pub name: &'static str,
    /// How many cases at scale 1.
    pub cases: u64,
    /// How many for the figures of docs/COMPARISON.md.
    pub figures: u64,
    /// The cases are all there are, whatever the scale.
    pub whole: bool,
    /// Compares one case, which its number and the generator determine.
    pub compare: fn(&mut Rng, u64, &mut Tally),
    /// What its cases have to bring, as the tally counts it.
    pub brings: &'static [&'static str],
}

pub const KINDS: [&[Kind]; 13] = [
    own::KINDS,
    leaves::KINDS,
    palettes::KINDS,
    training::KINDS,
    seeding::KINDS,
    groups::KINDS,
    calls::KINDS,
    runs::KINDS,
    neighbours::KINDS,
    sheets::KINDS,
    entries::KINDS,
    edges::KINDS,
    programs::KINDS,
];

/// Cases at scale 1, and for the figures.
const fn kind(name: &'static str, cases: u64, figures: u64, compare: fn(&mut Rng, u64, &mut Tally)) -> Kind {
    Kind { name, cases, figures, whole: false, compare, brings: &[] }
}

/// All the cases there are.
const fn whole(name: &'static str, cases: u64, compare: fn(&mut Rng, u64, &mut Tally)) -> Kind {
    Kind { name, cases, figures: cases, whole: true, compare, brings: &[] }
}

impl Kind {
    const fn bringing(self, brings: &'static [&'static str]) -> Self {
        Kind { brings, ..self }
    }
}

/// Both tile sizes.
const SIZES: &[&str] = &["at size 64", "at size 256"];

/// Tiles as large as can be, and colours counted as often.
const TILES: &[&str] = &["tiles of 256 colours", "counts of 256"];

/// Both tile sizes, and such tiles.
const JOBS: &[&str] = &["at size 64", "at size 256", "tiles of 256 colours", "counts of 256"];

/// The tile size of a case where there are few: one and the other in turn.
fn in_turn(case: u64) -> usize {
    TILE_SIZES[case as usize % 2]
}
