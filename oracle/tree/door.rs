//! The door: stands below `incremental` and asks its functions what a caller outside cannot.

use std::cell::Cell;
use std::rc::Rc;

use terms::{Colour, Edit, Entry, Fit, FitTwo, Grouped, Job, Ran, Reduce, Rust, Stop, Tile};

use super::super::palette::{Palette, Settings, SubpaletteView};
use super::super::{Sample, TileData, extract, quantizer, stats};
use crate::color::{self, NormalizedColor, ReducedColor, Rgba8888};
use crate::image::Image;
use crate::mode::Mode;
use crate::mode::color::ColorRounding;
use crate::prng::Prng;

pub(in super::super) fn settings() -> Settings {
    Settings {
        mode: Mode,
        rounding: ColorRounding,
        dither: None,
    }
}

pub(in super::super) fn tile_data(tile: &Tile, hint: usize) -> TileData {
    TileData {
        colors: tile.colours.iter().map(|&c| c.into()).collect(),
        counts: tile.counts.clone(),
        pixels: Vec::new(),
        sp_hint: Cell::new(hint),
    }
}

pub(in super::super) fn tiles_data(tiles: &[Tile], hints: &[usize]) -> Vec<TileData> {
    tiles.iter().zip(hints).map(|(tile, &hint)| tile_data(tile, hint)).collect()
}

pub(in super::super) fn samples_data(job: &Job) -> Vec<Sample> {
    let sample = |s: &terms::Sample| Sample {
        tile: s.tile,
        x: 0,
        y: 0,
        color: job.tiles[s.tile].colours[s.place].into(),
    };
    job.samples.iter().map(sample).collect()
}

pub(in super::super) fn hints_of(tiles: &[TileData]) -> Vec<usize> {
    tiles.iter().map(|tile| tile.sp_hint.get()).collect()
}

pub(in super::super) fn palette_of(palette: &terms::Palette) -> Palette {
    let colors: Vec<Vec<_>> = palette.iter().map(|sub| sub.iter().map(|&c| c.into()).collect()).collect();
    Palette::from_colors(&colors, settings())
}

pub(in super::super) fn colours_of(palette: &Palette) -> terms::Palette {
    let sub = |sub: &super::super::palette::Subpalette| sub.colors().iter().map(|&c| c.into()).collect();
    palette.subpalettes().iter().map(sub).collect()
}

impl Rust for crate::Door {
    fn shuffle(&self, seed: u64, items: &mut [u32]) {
        Prng::new(seed).shuffle(items);
    }

    fn argmax(&self, values: &[f32]) -> usize {
        stats::argmax(values)
    }

    fn argmin(&self, values: &[f32]) -> usize {
        stats::argmin(values)
    }

    fn smallest_two(&self, values: &[f32]) -> (usize, f32, f32) {
        stats::smallest_two(values.iter().copied())
    }

    fn sqdist(&self, p: Colour, q: Colour) -> f32 {
        color::oklab_sqdist(p.into(), q.into())
    }

    fn mean(&self, colours: &[Colour]) -> Option<Colour> {
        color::mean_oklab(colours.iter().map(|&c| c.into())).map(Into::into)
    }

    fn nearest(&self, sub: &[Colour], q: Colour) -> (usize, f32) {
        let colors: Vec<_> = sub.iter().map(|&c| c.into()).collect();
        SubpaletteView::exact(&colors).nearest(q.into())
    }

    fn nearest_two(&self, sub: &[Colour], q: Colour) -> (usize, f32, f32) {
        let colors: Vec<_> = sub.iter().map(|&c| c.into()).collect();
        SubpaletteView::exact(&colors).nearest_two(q.into())
    }

    fn best_fit(&self, palette: &terms::Palette, tile: &Tile, hints: &[usize]) -> Vec<Fit> {
        let (palette, tile) = (palette_of(palette), tile_data(tile, 0));
        let fit = |&hint: &usize| {
            tile.sp_hint.set(hint);
            let (index, dist) = palette.best_fit(&tile);
            Fit {
                index,
                dist,
                hint: tile.sp_hint.get(),
            }
        };
        hints.iter().map(fit).collect()
    }

    fn best_two(&self, palette: &terms::Palette, tile: &Tile, hints: &[usize]) -> Vec<FitTwo> {
        let (palette, tile) = (palette_of(palette), tile_data(tile, 0));
        let fit = |&hint: &usize| {
            tile.sp_hint.set(hint);
            let (index, dist, second) = palette.best_two(&tile);
            FitTwo {
                index,
                dist,
                second,
                hint: tile.sp_hint.get(),
            }
        };
        hints.iter().map(fit).collect()
    }

    fn mse(&self, palette: &terms::Palette, tiles: &[Tile], hints: &mut [usize]) -> f32 {
        let tiles = tiles_data(tiles, hints);
        let error = palette_of(palette).mse(&tiles);
        hints.copy_from_slice(&hints_of(&tiles));
        error
    }

    fn nudge(&self, palette: &mut terms::Palette, tile: &Tile, hint: usize, target: Colour, alpha: f32) -> usize {
        let tile = tile_data(tile, hint);
        let sample = Sample {
            tile: 0,
            x: 0,
            y: 0,
            color: target.into(),
        };
        let mut nudged = palette_of(palette);
        nudged.nudge(&tile, &sample, alpha);
        *palette = colours_of(&nudged);
        tile.sp_hint.get()
    }

    fn edit(&self, palette: &mut terms::Palette, edit: Edit) {
        let mut edited = palette_of(palette);
        match edit {
            Edit::DuplicatePalette(from) => edited.duplicate_palette(from),
            Edit::DuplicateColor { sub, from } => edited.duplicate_color(sub, from),
            Edit::CopySubpalette { from, to } => edited.copy_subpalette(from, to),
            Edit::CopyColor { sub, from, to } => edited.copy_color(sub, from, to),
        }
        *palette = colours_of(&edited);
    }

    fn assign(&self, palette: &terms::Palette, tiles: &[Tile], hints: &mut [usize]) -> Vec<usize> {
        let colors: Vec<Vec<_>> = palette.iter().map(|sub| sub.iter().map(|&c| c.into()).collect()).collect();
        let tiles = tiles_data(tiles, hints);
        let assigned = quantizer::assign_subpalettes(&colors, &tiles, settings());
        hints.copy_from_slice(&hints_of(&tiles));
        assigned
    }

    fn group(&self, pixels: &[[u8; 4]], zero: Option<[u8; 4]>) -> Grouped {
        let slice = Image {
            width: pixels.len() as u32,
            height: 1,
            src_x: 0,
            src_y: 0,
            data: pixels.iter().map(|&p| NormalizedColor(Rgba8888::from_bytes(p))).collect(),
            indexed_data: Vec::new(),
            palette: Vec::new(),
            colors: Default::default(),
        };
        let zero = zero.map(|z| ReducedColor(Rgba8888::from_bytes(z)));
        let (tiles, samples) = extract(&[slice], Mode, ColorRounding, zero);
        let tile = &tiles[0];
        assert_eq!(tile.pixels.len(), samples.len());

        let mut index = vec![None; pixels.len()];
        let mut bytes = vec![[0; 4]; tile.colors.len()];
        for kept in tile.pixels.iter().rev() {
            index[kept.x as usize] = Some(kept.color);
            bytes[kept.color] = pixels[kept.x as usize];
        }
        let entry = |i: usize| Entry {
            bytes: bytes[i],
            oklab: tile.colors[i].into(),
            count: tile.counts[i],
        };
        Grouped {
            entries: (0..tile.colors.len()).map(entry).collect(),
            index,
        }
    }

    fn run(&self, job: &Job, hints: &[usize], seed: u64, mut reduce: Reduce) -> Ran {
        let tiles = Rc::new(tiles_data(&job.tiles, hints));
        let stops = Rc::new(std::cell::RefCell::new(Vec::new()));
        let (size, c) = (job.s * job.c, job.c);

        let (seen, watched) = (stops.clone(), tiles.clone());
        let mut calls = 0;
        let reduction = move |colour: Colour| {
            let (stop, place) = (calls / size, calls % size);
            calls += 1;
            let mut seen = seen.borrow_mut();
            if place == 0 {
                seen.push(Stop {
                    palette: Vec::new(),
                    hints: hints_of(&watched),
                });
            }
            let palette: &mut terms::Palette = &mut seen[stop].palette;
            if place % c == 0 {
                palette.push(Vec::new());
            }
            palette[place / c].push(colour);
            reduce(stop, place, colour)
        };

        let samples = samples_data(job);
        let result = terms::host::with_reduction(Box::new(reduction), || {
            quantizer::run(&tiles, &samples, job.s, job.c, settings(), seed)
        });
        Ran {
            stops: stops.take(),
            result: result.into_iter().map(|sub| sub.into_iter().map(Into::into).collect()).collect(),
            hints: hints_of(&tiles),
        }
    }
}
