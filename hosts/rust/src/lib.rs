//! Safe calls of the palette trainer Dunkafeto.
//!
//! A [`Job`] is a picture kept as tiles, of 8 by 8 or of 16 by 16 pixels: the colours of each tile and how often each
//! occurs. A [`Trainer`] trains S subpalettes of C colours for it, in calls of any size, and stops three times for the host
//! to reduce the colours to those that its console has. The same job and seed give the same colours on every machine,
//! however the run is divided into calls, and whether or not it was saved and taken up again. [`assign`] then gives each
//! tile its subpalette.
//!
//! Every call checks all that it is given. What it does not accept it refuses with a [`Refusal`], which names the first bad
//! colour where it is a colour's fault: then it made no draw and wrote nothing. The library behind the calls allocates
//! nothing and shares nothing between runs.
//!
//! ```
//! use dunkafeto::{assign, console, Tiles, Trainer, SMALL_TILE};
//!
//! let mut tiles = Tiles::new(SMALL_TILE);
//! tiles.push([([0.2, 0.0, 0.0], 32), ([0.9, 0.0, 0.0], 32)]);
//! tiles.push([([0.6, 0.2, 0.1], 60), ([0.3, -0.1, 0.1], 4)]);
//! let samples = tiles.samples();
//! let job = tiles.job(2, 2, 2.15, &samples, 0);
//!
//! let colours = Trainer::start(job)?.finish(console::reduced)?;
//! let subpalettes = assign(&job, &colours, &mut [0; 2])?;
//! assert_ne!(subpalettes[0], subpalettes[1]);
//! # Ok::<(), dunkafeto::Refusal>(())
//! ```
//!
//! docs/HOSTS.md in the repository says the same for C, and what to do about each refusal.

#![deny(unsafe_code)]
#![warn(missing_docs)]

pub mod console;
mod entry;
#[allow(unsafe_code, missing_docs)]
mod exports;
#[allow(unsafe_code)]
mod ffi;
mod job;
mod memory;
mod refusal;
mod saved;
mod sheet;
mod trainer;

/// The example of docs/HOSTS.md is run with the tests.
#[cfg(doctest)]
#[doc = include_str!("../../../docs/HOSTS.md")]
struct HostsDocument;

pub use entry::{Entry, EntryKind};
pub use job::{
    Colour, Job, Sample, Tile, Tiles, LARGE_TILE, MOST_COLOURS, MOST_SAMPLES, MOST_SUBPALETTES, MOST_TILES, SMALL_TILE,
};
pub use memory::Memory;
pub use refusal::Refusal;
pub use saved::{saved_by_earlier_release, RestoreError};
pub use sheet::{Sheet, MOST_BYTES};
pub use trainer::{Advanced, Moment, Stage, Trainer};

/// For each tile the subpalette that fits it best, the lowest of equals; 0 for an empty tile.
///
/// `palette` has S·C colours, `hints` one number a tile, any: the subpalette that is tried first. The hint of each tile that
/// is not empty becomes its subpalette. The job's samples are not looked at. Refused with 2 to 7.
pub fn assign(job: &Job, palette: &[Colour], hints: &mut [u32]) -> Result<Vec<u32>, Refusal> {
    let t = if job.tiles.len() > MOST_TILES { 0 } else { job.tiles.len() };
    let mut subpalettes = vec![0; t];
    ffi::assign(job, palette, hints, &mut subpalettes)?;
    Ok(subpalettes)
}

/// FNV-1a of 64 bits, by which hosts compare sheets at a glance.
///
/// ```
/// assert_eq!(dunkafeto::checksum(b"a"), 0xaf63dc4c8601ec8c);
/// ```
pub fn checksum(bytes: &[u8]) -> u64 {
    bytes.iter().fold(0xcbf2_9ce4_8422_2325, |sum, &byte| (sum ^ u64::from(byte)).wrapping_mul(0x100_0000_01b3))
}
