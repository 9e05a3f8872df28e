//! Shim: signatures alone, for output palettes, which are not taken.

use crate::color::{NormalizedColor, ReducedColor};
use crate::mode::Mode;
use crate::mode::color::ColorRounding;

pub struct Palette;

impl Palette {
    pub fn new(_: Mode, _: usize, _: usize, _: ColorRounding) -> Self {
        unimplemented!()
    }

    pub fn set_color_zero(&mut self, _: NormalizedColor) {
        unimplemented!()
    }

    pub fn add_subpalette_with(&mut self, _: &[ReducedColor]) -> Result<(), String> {
        unimplemented!()
    }

    pub fn sort(&mut self) {
        unimplemented!()
    }
}

pub struct Subpalette {
    pub mode: Mode,
}

impl Subpalette {
    pub fn normalized_colors(&self) -> Vec<NormalizedColor> {
        unimplemented!()
    }
}
