//! palette, palette_two, palette_edit.

use foreign::ours::Two;
use foreign::{
    lend, probe_best_fit, probe_best_two, probe_copy_color, probe_copy_subpalette, probe_duplicate_color,
    probe_duplicate_palette, probe_nudge, probe_tile_distance,
};
use terms::{Colour, Edit, Fit, Palette, Tile};

pub fn tile_distance(sub: &[Colour], tile: &Tile, weight: f32) -> f32 {
    let (sub, colours, counts) = (sub.as_flattened(), tile.colours.as_flattened(), &tile.counts);
    unsafe { lend!(probe_tile_distance(ref sub, ref colours, ref counts, weight)) }
}

/// A palette in one flat slice, with room for `room` colours in each subpalette; where none is present stands a NaN, which
/// nothing may read.
#[derive(Clone)]
pub struct Flat {
    pub numbers: Vec<f32>,
    pub room: usize,
    pub have: usize,
    pub subs: usize,
}

impl Flat {
    pub fn new(palette: &Palette, room: usize) -> Self {
        Flat::with_places(palette, room, palette.len())
    }

    /// With room for `places` subpalettes, those that are not there yet at the end.
    pub fn with_places(palette: &Palette, room: usize, places: usize) -> Self {
        let (subs, have) = (palette.len(), palette[0].len());
        let mut flat = Flat { numbers: vec![f32::NAN; 3 * places * room], room, have, subs };
        flat.put(palette);
        flat
    }

    /// Puts a palette in its places; the others keep theirs.
    pub fn put(&mut self, palette: &Palette) {
        for (i, sub) in palette.iter().enumerate() {
            self.numbers[3 * i * self.room..][..3 * sub.len()].copy_from_slice(sub.as_flattened());
        }
    }

    pub fn sub(&self, i: usize) -> &[Colour] {
        &self.numbers.as_chunks().0[i * self.room..][..self.have]
    }

    pub fn nudge(&mut self, place: usize, target: Colour, alpha: f32) {
        let [l, a, b] = target;
        unsafe { lend!(probe_nudge(mut self.numbers, place, l, a, b, alpha)) };
    }

    pub fn edit(&mut self, edit: Edit) {
        let (c, have, n) = (self.room, self.have, self.subs);
        let pal = &mut self.numbers;
        unsafe {
            match edit {
                Edit::DuplicatePalette(from) => lend!(probe_duplicate_palette(mut pal, c, have, n, from)),
                Edit::DuplicateColor { sub, from } => lend!(probe_duplicate_color(mut pal, c, have, sub, from)),
                Edit::CopySubpalette { from, to } => lend!(probe_copy_subpalette(mut pal, c, have, from, to)),
                Edit::CopyColor { sub, from, to } => lend!(probe_copy_color(mut pal, c, sub, from, to)),
            }
        }
    }
}

/// A tile that is not empty, by the hint at place t of some.
pub fn best_fit(palette: &Flat, tile: &Tile, weight: f32, hints: &mut [u32], t: usize) -> Fit {
    let (colours, counts, mut dist) = (tile.colours.as_flattened(), &tile.counts, 0.0);
    let index = unsafe {
        lend!(probe_best_fit(
            ref palette.numbers, palette.room, palette.have, palette.subs,
            ref colours, ref counts, weight, mut hints, t, &mut dist
        ))
    };
    Fit { index, dist, hint: hints[t] as usize }
}

/// A tile that may be empty, by the hint at place t of some.
pub fn best_two(palette: &Flat, tile: &Tile, weight: f32, hints: &mut [u32], t: usize) -> Two {
    let (colours, counts, mut two) = (tile.colours.as_flattened(), &tile.counts, Two::NONE);
    two.index = unsafe {
        lend!(probe_best_two(
            ref palette.numbers, palette.room, palette.have, palette.subs,
            ref colours, ref counts, weight, mut hints, t, &mut two.dist, &mut two.next, &mut two.second
        ))
    };
    two
}
