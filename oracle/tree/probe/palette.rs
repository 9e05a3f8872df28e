//! Appended to palette.rs: its private distances.

use super::{SubpaletteView, Tie};
use crate::quant::incremental::TileData;

impl SubpaletteView<'_> {
    pub(in super::super) fn whole_distance(&self, tile: &TileData) -> f32 {
        self.distance(tile, None)
    }

    pub(in super::super) fn limited_distance(&self, tile: &TileData, limit: f32, lose: bool) -> Option<f32> {
        let tie = if lose { Tie::Lose } else { Tie::Win };
        self.distance_within(tile, None, limit, tie)
    }
}
