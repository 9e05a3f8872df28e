// Shim: signatures alone, for the growing of output palettes, which is not taken.

use crate::color::ReducedColor;
use crate::mode::{Mode, color::ColorRounding};
use quantette::{deps::palette::Oklab, wu::BinnerF32x3};

fn dedup_reduced(_: &[Oklab], _: Mode, _: ColorRounding) -> Vec<ReducedColor> {
    unimplemented!()
}

fn grow_to_capacity(
    _: Vec<ReducedColor>,
    _: &[Oklab],
    _: usize,
    _: Mode,
    _: ColorRounding,
    _: BinnerF32x3,
) -> Result<Vec<ReducedColor>, String> {
    unimplemented!()
}
