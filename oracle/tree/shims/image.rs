//! Shim: an image is what `extract` reads of it. What only output images need is not there to be run.

use std::collections::BTreeSet;

use crate::color::NormalizedColor;
use crate::mode::Mode;

pub struct Image {
    pub width: u32,
    pub height: u32,
    pub src_x: u32,
    pub src_y: u32,
    pub data: Vec<NormalizedColor>,
    pub indexed_data: Vec<u8>,
    pub palette: Vec<NormalizedColor>,
    pub colors: BTreeSet<NormalizedColor>,
}

impl Image {
    pub fn color_at(&self, i: usize) -> NormalizedColor {
        self.data[i]
    }

    pub fn sliced(&self, _: u32, _: u32, _: Mode) -> std::iter::Empty<Image> {
        unimplemented!()
    }
}

pub fn colors_in(_: &[NormalizedColor]) -> BTreeSet<NormalizedColor> {
    unimplemented!()
}
