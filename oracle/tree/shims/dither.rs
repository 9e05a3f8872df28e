//! Shim: the names of the dithers.

#[derive(Debug, Clone, Copy, PartialEq, Eq)]
pub enum Dither {
    Off,
    Bayer2x2,
    Bayer4x4,
    Bayer8x8,
    Checker,
    StippleV,
    StippleH,
    LineV,
    LineH,
    Atkinson,
    FloydSteinberg,
}

impl std::fmt::Display for Dither {
    fn fmt(&self, f: &mut std::fmt::Formatter<'_>) -> std::fmt::Result {
        write!(f, "{self:?}")
    }
}
