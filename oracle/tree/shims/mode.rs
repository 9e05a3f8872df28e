//! Shim: one mode, whose reduction is the host's. A reduced colour of an image is its four bytes.

#[derive(Debug, Clone, Copy)]
pub struct Mode;

pub mod color {
    use super::Mode;
    use crate::color::{NormalizedColor, ReducedColor};

    #[derive(Debug, Clone, Copy)]
    pub struct ColorRounding;

    pub trait ModeColor {
        fn reduce_color(&self, color: NormalizedColor, rounding: ColorRounding) -> ReducedColor;
        fn normalize_color(&self, color: ReducedColor) -> NormalizedColor;
        fn quantize_color(&self, color: NormalizedColor, rounding: ColorRounding) -> NormalizedColor;
    }

    impl ModeColor for Mode {
        fn reduce_color(&self, color: NormalizedColor, _: ColorRounding) -> ReducedColor {
            ReducedColor(color.0)
        }

        /// The host keeps the Oklab that goes with the bytes, for the `to_oklab` that follows.
        fn normalize_color(&self, color: ReducedColor) -> NormalizedColor {
            terms::host::keep_named(color.to_bytes());
            NormalizedColor(color.0)
        }

        /// The host reduces the colour that `oklab_to_srgb8` kept, for the `to_oklab` that follows.
        fn quantize_color(&self, color: NormalizedColor, _: ColorRounding) -> NormalizedColor {
            terms::host::reduce();
            color
        }
    }
}
