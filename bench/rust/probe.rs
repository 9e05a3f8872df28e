//! Appended to quantizer.rs: each function that is measured, on what it needs ready made.

use std::cell::Cell;

use quantette::deps::palette::Oklab;
use terms::{Colour, Job};

use super::super::palette::{Palette, Settings};
use super::super::{Sample, TileData};
use super::{
    MIN_COLOR_FACTOR, MIN_PALETTE_FACTOR, REPLACE_ALPHA, SampleCycle, assign_subpalettes, nudge, replace_weakest, run,
};
use crate::mode::Mode;
use crate::mode::color::ColorRounding;
use crate::prng::Prng;
use crate::{Make, Standing, Timed};

struct Ready {
    s: usize,
    c: usize,
    tiles: Vec<TileData>,
    samples: Vec<Sample>,
    from: State,
    now: State,
}

struct State {
    palette: Palette,
    least: Palette,
    error: f32,
    hints: Vec<usize>,
    cycle: SampleCycle,
    generator: u64,
}

impl State {
    fn copy(&self) -> Self {
        State {
            palette: self.palette.clone(),
            least: self.least.clone(),
            error: self.error,
            hints: self.hints.clone(),
            cycle: SampleCycle {
                order: self.cycle.order.clone(),
                index: self.cycle.index,
                prng: Prng::new(self.generator),
            },
            generator: self.generator,
        }
    }
}

fn settings() -> Settings {
    Settings { mode: Mode, rounding: ColorRounding, dither: None }
}

fn palette_of(palette: &terms::Palette) -> Palette {
    let colors: Vec<Vec<_>> = palette.iter().map(|sub| sub.iter().map(|&c| c.into()).collect()).collect();
    Palette::from_colors(&colors, settings())
}

impl Make for crate::Door {
    fn make(&self, job: &Job, standing: &Standing) -> Box<dyn Timed> {
        let n = job.samples.len();
        let tile = |tile: &terms::Tile| TileData {
            colors: tile.colours.iter().map(|&c| c.into()).collect(),
            counts: tile.counts.clone(),
            pixels: Vec::new(),
            sp_hint: Cell::new(0),
        };
        let sample =
            |s: &terms::Sample| Sample { tile: s.tile, x: 0, y: 0, color: job.tiles[s.tile].colours[s.place].into() };
        let place = standing.made as usize % n;
        let state = || State {
            palette: palette_of(&standing.palette),
            least: palette_of(&standing.least),
            error: standing.error,
            hints: standing.hints.clone(),
            cycle: SampleCycle {
                order: standing.order.clone(),
                index: if place == 0 && standing.made > 0 { n } else { place },
                prng: Prng::new(standing.generator),
            },
            generator: standing.generator,
        };
        let mut ready = Ready {
            s: job.s,
            c: job.c,
            tiles: job.tiles.iter().map(tile).collect(),
            samples: job.samples.iter().map(sample).collect(),
            from: state(),
            now: state(),
        };
        ready.restore();
        Box::new(ready)
    }

    fn fits(&self, palette: &[Vec<Oklab>], tiles: Vec<(Vec<Oklab>, Vec<u32>)>) -> Vec<(usize, f32, usize)> {
        let all = Palette::from_colors(palette, settings());
        let without = |i: usize| Palette::from_colors(&[&palette[..i], &palette[i + 1..]].concat(), settings());
        let others: Vec<Palette> = (0..palette.len()).map(without).collect();
        let fit = |(colors, counts)| {
            let tile = TileData { colors, counts, pixels: Vec::new(), sp_hint: Cell::new(0) };
            if tile.is_empty(settings()) {
                return (0, 0.0, 0);
            }
            let (sub, dist) = all.best_fit(&tile);
            if palette.len() == 1 {
                return (sub, dist, sub);
            }
            tile.sp_hint.set(0);
            let (next, _) = others[sub].best_fit(&tile);
            (sub, dist, if next < sub { next } else { next + 1 })
        };
        tiles.into_iter().map(fit).collect()
    }
}

impl Timed for Ready {
    fn restore(&mut self) {
        self.now = self.from.copy();
        for (tile, &hint) in self.tiles.iter().zip(&self.from.hints) {
            tile.sp_hint.set(hint);
        }
    }

    fn set_hint(&mut self, tile: usize, hint: usize) {
        self.tiles[tile].sp_hint.set(hint);
    }

    fn hint(&self, tile: usize) -> usize {
        self.tiles[tile].sp_hint.get()
    }

    fn colours(&self) -> terms::Palette {
        self.now.palette.subpalettes().iter().map(|sub| sub.colors().iter().map(|&c| c.into()).collect()).collect()
    }

    fn nearest(&self, sub: usize, q: Colour, dist: &mut f32) -> usize {
        let (index, near) = self.now.palette.subpalettes()[sub].view().nearest(q.into());
        *dist = near;
        index
    }

    fn best_fit(&self, tile: usize, dist: &mut f32) -> usize {
        let (index, best) = self.now.palette.best_fit(&self.tiles[tile]);
        *dist = best;
        index
    }

    fn best_two(&self, tile: usize, dist: &mut f32, second: &mut f32) -> usize {
        let (index, best, next) = self.now.palette.best_two(&self.tiles[tile]);
        (*dist, *second) = (best, next);
        index
    }

    fn mse(&self) -> f32 {
        self.now.palette.mse(&self.tiles)
    }

    fn draw(&mut self, alpha: f32) {
        let State { palette, cycle, .. } = &mut self.now;
        nudge(palette, &self.tiles, &self.samples, cycle, alpha, 1);
    }

    fn round(&mut self) -> f32 {
        let State { palette, least, error, cycle, .. } = &mut self.now;
        nudge(palette, &self.tiles, &self.samples, cycle, REPLACE_ALPHA, self.samples.len() / 10);
        let mse = palette.mse(&self.tiles);
        if mse < *error {
            *error = mse;
            *least = palette.clone();
        }
        *palette = replace_weakest(palette, &self.tiles, MIN_COLOR_FACTOR, MIN_PALETTE_FACTOR);
        *error
    }

    fn run(&self, seed: u64, reduce: fn(Colour) -> Colour) -> terms::Palette {
        for tile in &self.tiles {
            tile.sp_hint.set(0);
        }
        let result = terms::host::with_reduction(Box::new(reduce), || {
            run(&self.tiles, &self.samples, self.s, self.c, settings(), seed)
        });
        result.into_iter().map(|sub| sub.into_iter().map(Into::into).collect()).collect()
    }

    fn assign(&self) -> Vec<usize> {
        let colors: Vec<Vec<_>> = self.now.palette.subpalettes().iter().map(|sub| sub.colors().to_vec()).collect();
        assign_subpalettes(&colors, &self.tiles, settings())
    }
}
