//! Our functions as C has them: the library that ships, declared where the host in Rust has it, and the forwarders of the probe crates.
//! A slice is a pointer and a length. Whoever calls a forwarder meets what the function behind it requires.

mod calls;
#[path = "../../../hosts/rust/src/exports.rs"]
mod exports;
mod leaves;
mod lend;
pub mod ours;
mod palettes;
mod sheets;
pub mod shipped;
mod training;

pub use calls::*;
pub use exports::*;
pub use leaves::*;
pub use palettes::*;
pub use sheets::*;
pub use training::*;
