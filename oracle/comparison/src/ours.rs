//! Our functions, from the library that ships and through the forwarders.
//! Each wrapper's caller meets what the function requires; the cases are made so.

mod calls;
mod palettes;
mod runs;
mod sheets;
mod training;

pub use calls::*;
pub use foreign::ours::*;
pub use palettes::*;
pub use runs::*;
pub use sheets::*;
pub use training::*;
