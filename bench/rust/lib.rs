//! The Rust, laid out by build.rs, and what is measured of it. Each call goes through a trait object, so that it is not
//! inlined into what measures it.

#![allow(dead_code)]

include!(concat!(env!("OUT_DIR"), "/modules.rs"));

pub use quantette::deps::palette::Oklab;
use terms::{Colour, Job, Palette};

/// A state of a run between two draws.
pub struct Standing {
    pub palette: Palette,
    pub least: Palette,
    pub hints: Vec<usize>,
    pub order: Vec<usize>,
    pub generator: u64,
    pub made: u64,
    pub error: f32,
}

pub trait Timed {
    /// Back to the state that it was made from.
    fn restore(&mut self);
    fn set_hint(&mut self, tile: usize, hint: usize);
    fn hint(&self, tile: usize) -> usize;
    fn colours(&self) -> Palette;
    fn nearest(&self, sub: usize, q: Colour, dist: &mut f32) -> usize;
    fn best_fit(&self, tile: usize, dist: &mut f32) -> usize;
    fn best_two(&self, tile: usize, dist: &mut f32, second: &mut f32) -> usize;
    fn mse(&self) -> f32;
    /// The next draw of the cycle, by alpha.
    fn draw(&mut self, alpha: f32);
    /// The draws of a round of replacing, its error, the palette kept where it is the least, the next replacement.
    fn round(&mut self) -> f32;
    /// A whole run from hints 0.
    fn run(&self, seed: u64, reduce: fn(Colour) -> Colour) -> Palette;
    fn assign(&self) -> Vec<usize>;
}

/// Its implementation stands below quantizer.rs.
pub trait Make {
    fn make(&self, job: &Job, standing: &Standing) -> Box<dyn Timed>;
    /// The best fit of each tile, colours and counts, from hint 0, and the next best: the best where the first is left out, itself where
    /// there is no other; 0 at distance 0 and 0 for an empty one.
    fn fits(&self, palette: &[Vec<Oklab>], tiles: Vec<(Vec<Oklab>, Vec<u32>)>) -> Vec<(usize, f32, usize)>;
}

pub struct Door;
