//! Distances, fits, and edits of a flat palette.

use answers::{probed, rust};
use terms::jobs::{self, Colours};
use terms::rng::Rng;
use terms::{Colour, Edit, Fit, Palette, Tile};

use super::{Kind, TILES, kind};
use crate::ours::{self, Flat};
use crate::reading::fits;
use crate::tally::Tally;

pub const KINDS: &[Kind] = &[
    kind("nearest", 50_000, 500_000, nearest),
    kind("nearest_two", 50_000, 500_000, nearest_two),
    kind("tile distance", 20_000, 200_000, distance).bringing(TILES),
    kind("best_fit", 10_000, 100_000, best_fit).bringing(TILES),
    kind("best_two", 10_000, 100_000, best_two).bringing(TILES),
    kind("tied runners-up", 20_000, 200_000, tied_two).bringing(TILES),
    kind("nudge", 50_000, 500_000, nudge),
    kind("one draw", 20_000, 200_000, draw).bringing(TILES),
    kind("edits", 20_000, 200_000, edits),
];

/// A palette that a run may hold, a tile, and the weight.
struct Case {
    palette: Palette,
    tile: Tile,
    weight: f32,
    flat: Flat,
}

impl Case {
    /// The tile is not empty, and of either size.
    fn any(rng: &mut Rng, tally: &mut Tally) -> Self {
        let (size, colours) = (jobs::tile_size(rng), Colours::any(rng, 2.0));
        let limit = rng.pick(&[2.0, 4.0]);
        let (s, room) = (jobs::sixteen(rng), jobs::sixteen(rng));
        let have = if rng.once_in(2) { room } else { rng.among(1, room) };
        let palette = jobs::palette(rng, s, have, &colours, limit);
        let flat = Flat::new(&palette, room);
        let tile = jobs::full_tile(rng, size, &colours);
        tally.tiles(std::slice::from_ref(&tile));
        Case { palette, tile, weight: jobs::weight(rng), flat }
    }

    /// Every hint that names a subpalette, and some that name none.
    fn hints(&self) -> Vec<usize> {
        let s = self.palette.len();
        (0..s + 2).chain([99, u32::MAX as usize]).collect()
    }

    /// The best two from each hint; the hints of other tiles stay.
    fn compare_two(&self, tally: &mut Tally) {
        let (hints, Case { palette, tile, weight, flat }) = (self.hints(), self);
        let fits = rust(*weight).best_two(palette, tile, &hints);
        for (&hint, fit) in hints.iter().zip(fits) {
            let mut lent = [7, hint as u32, 9];
            let two = ours::best_two(flat, tile, *weight, &mut lent, 1);
            let right = ((fit.index, fit.dist, fit.second), fits::next_best(palette, tile, *weight, fit.index));
            tally.same(((two.known(), two.next), lent.to_vec()), (right, vec![7, fit.hint as u32, 9]), || {
                self.shown(hint)
            });
            let (tied, around) = fits::tied_next(palette, tile, *weight, fit.index);
            tally.add("tied runners-up", tied.into());
            tally.add("tied around the winner", around.into());
        }
    }

    fn shown(&self, hint: usize) -> String {
        format!("hint {hint}, weight {:?}, {:?}, {:?}", self.weight, self.tile, self.palette)
    }
}

/// A subpalette that a run may hold, a job's colour, and the weight.
fn near(rng: &mut Rng) -> (Vec<Colour>, Colour, f32) {
    let (weight, colours) = (jobs::weight(rng), Colours::any(rng, 4.0));
    let n = jobs::sixteen(rng);
    (colours.many(rng, n, 4.0), colours.one(rng, 2.0), weight)
}

/// By the function and by the view.
fn nearest(rng: &mut Rng, _: u64, tally: &mut Tally) {
    let (sub, q, weight) = near(rng);
    let right = rust(weight).nearest(&sub, q);
    let shown = || format!("{q:?} among {sub:?}, weight {weight:?}");
    tally.same(ours::nearest(&sub, q, weight), right, shown);
    tally.same(ours::view_nearest(&sub, q, weight), right, shown);
}

/// By the function and by the view.
fn nearest_two(rng: &mut Rng, _: u64, tally: &mut Tally) {
    let (sub, q, weight) = near(rng);
    let right = rust(weight).nearest_two(&sub, q);
    let next = fits::next_nearest(&sub, q, weight, right.0);
    let shown = || format!("{q:?} among {sub:?}, weight {weight:?}");
    for two in [ours::nearest_two(&sub, q, weight), ours::view_nearest_two(&sub, q, weight)] {
        tally.same((two.known(), two.next), (right, next), shown);
    }
}

fn distance(rng: &mut Rng, _: u64, tally: &mut Tally) {
    let case = Case::any(rng, tally);
    let empty = Tile::default();
    let tile = if rng.once_in(10) { &empty } else { &case.tile };
    let ours = ours::tile_distance(&case.palette[0], tile, case.weight);
    tally.same(ours, probed(case.weight).distance(&case.palette[0], tile), || case.shown(0));
}

/// From each hint; the hints of other tiles stay.
fn best_fit(rng: &mut Rng, _: u64, tally: &mut Tally) {
    let case = Case::any(rng, tally);
    let hints = case.hints();
    let fits = rust(case.weight).best_fit(&case.palette, &case.tile, &hints);
    for (&hint, fit) in hints.iter().zip(fits) {
        let mut lent = [7, hint as u32, 9];
        let ours = ours::best_fit(&case.flat, &case.tile, case.weight, &mut lent, 1);
        let parts = |fit: Fit| (fit.index, fit.dist, fit.hint);
        tally.same((parts(ours), lent[0], lent[2]), (parts(fit), 7, 9), || case.shown(hint));
    }
}

/// As `best_fit`; the tile is empty now and then.
fn best_two(rng: &mut Rng, _: u64, tally: &mut Tally) {
    let mut case = Case::any(rng, tally);
    if rng.once_in(10) {
        case.tile = Tile::default();
    }
    case.compare_two(tally);
}

/// The same over copies of a few subpalettes, so that several are next best, and mostly with one of the tile's own colours among them, so
/// that the winner stands between them.
fn tied_two(rng: &mut Rng, _: u64, tally: &mut Tally) {
    let mut case = Case::any(rng, tally);
    let few = rng.among(1, case.palette.len().min(4));
    let s = rng.among(3, 16);
    case.palette = (0..s).map(|_| case.palette[rng.below(few)].clone()).collect();
    if !rng.once_in(4) {
        let own = case.tile.colours.iter().cycle().take(case.flat.have).copied().collect();
        case.palette[rng.below(s)] = own;
    }
    case.flat = Flat::new(&case.palette, case.flat.room);
    case.compare_two(tally);
}

/// One colour, by each alpha that training has, and any other.
fn nudge(rng: &mut Rng, _: u64, tally: &mut Tally) {
    let colours = Colours::any(rng, 2.0);
    let (old, target) = (Colours::any(rng, 4.0).one(rng, 4.0), colours.one(rng, 2.0));
    let any = rng.unit();
    let alpha = rng.pick(&[0.3, 0.5, 0.1, 0.2, any]);
    let mut palette = vec![vec![old]];
    let mut flat = Flat::new(&palette, 1);
    flat.nudge(0, target, alpha);
    rust(2.15).nudge(&mut palette, &Tile::default(), 0, target, alpha);
    tally.same(flat.numbers, palette[0][0].to_vec(), || format!("{old:?} to {target:?} by {alpha:?}"));
}

/// A fit, the nearest colour of the winner, its nudge: one draw of the Rust's.
fn draw(rng: &mut Rng, _: u64, tally: &mut Tally) {
    let mut case = Case::any(rng, tally);
    let target = rng.pick(&case.tile.colours);
    let hint = jobs::hints(rng, 1, case.palette.len())[0];
    let (alpha, room) = (rng.pick(&[0.3, 0.5]), case.flat.room);

    let mut lent = [hint as u32];
    let fit = ours::best_fit(&case.flat, &case.tile, case.weight, &mut lent, 0);
    let (place, _) = ours::nearest(case.flat.sub(fit.index), target, case.weight);
    case.flat.nudge(fit.index * room + place, target, alpha);

    let shown = case.shown(hint);
    let left = rust(case.weight).nudge(&mut case.palette, &case.tile, hint, target, alpha);
    let after = Flat::new(&case.palette, room);
    tally
        .same((case.flat.numbers, lent[0] as usize), (after.numbers, left), || format!("{target:?} {alpha:?} {shown}"));
}

fn edits(rng: &mut Rng, _: u64, tally: &mut Tally) {
    let case = Case::any(rng, tally);
    let (s, c, room) = (case.palette.len(), case.palette[0].len(), case.flat.room + 1);
    let edit = match rng.below(4) {
        0 => Edit::DuplicatePalette(rng.below(s)),
        1 => Edit::DuplicateColor { sub: rng.below(s), from: rng.below(c) },
        2 => Edit::CopySubpalette { from: rng.below(s), to: rng.below(s) },
        _ => Edit::CopyColor { sub: rng.below(s), from: rng.below(c), to: rng.below(c) },
    };
    let mut flat = Flat::with_places(&case.palette, room, s + 1);
    flat.edit(edit);
    let mut palette = case.palette.clone();
    rust(2.15).edit(&mut palette, edit);
    let after = Flat::with_places(&palette, room, s + 1);
    tally.same(flat.numbers, after.numbers, || format!("{edit:?} of {:?}", case.palette));
}
