//! What the Rust's files name of the crate quantette, and no more.
//!
//! The real crate converts between Oklab and sRGB. Here the conversions carry a colour past the Rust's own
//! `NormalizedColor`, which cannot hold it: `oklab_to_srgb8` keeps the colour, `srgb8_to_oklab` gives the kept one back,
//! and the shim of `Mode` puts the host's reduction between them.

pub mod deps {
    pub mod palette {
        #[derive(Debug, Clone, Copy, PartialEq)]
        pub struct Oklab {
            pub l: f32,
            pub a: f32,
            pub b: f32,
        }

        impl Oklab {
            pub const fn new(l: f32, a: f32, b: f32) -> Self {
                Oklab { l, a, b }
            }
        }

        impl From<terms::Colour> for Oklab {
            fn from([l, a, b]: terms::Colour) -> Self {
                Oklab { l, a, b }
            }
        }

        impl From<Oklab> for terms::Colour {
            fn from(c: Oklab) -> Self {
                [c.l, c.a, c.b]
            }
        }

        #[derive(Debug, Clone, Copy)]
        pub struct Srgb {
            pub red: u8,
            pub green: u8,
            pub blue: u8,
        }

        impl Srgb {
            pub const fn new(red: u8, green: u8, blue: u8) -> Self {
                Srgb { red, green, blue }
            }
        }
    }
}

pub mod color_space {
    use super::deps::palette::{Oklab, Srgb};

    /// Keeps the one colour given. Its bytes say nothing.
    pub fn oklab_to_srgb8(colors: &[Oklab]) -> [Srgb; 1] {
        let [color] = colors else {
            panic!("the trainer converts one colour at a time");
        };
        terms::host::keep((*color).into());
        [Srgb::new(0, 0, 0)]
    }

    /// The colour kept last, whatever the bytes.
    pub fn srgb8_to_oklab(_: &[Srgb]) -> [Oklab; 1] {
        [terms::host::kept().into()]
    }
}

pub mod wu {
    /// Named in a part of the Rust that is not taken.
    #[derive(Clone, Copy)]
    pub struct BinnerF32x3;

    impl BinnerF32x3 {
        pub fn oklab_from_srgb8() -> Self {
            BinnerF32x3
        }
    }
}
