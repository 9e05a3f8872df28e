//! Appended to quantizer.rs: its private cycle and stages, and a run that is put together from them draw by draw.
//! What the run adds to the stage functions is the order in which `run` and `seed_palette` call them; the comparison
//! holds it to the whole `run`.

use std::rc::Rc;

use terms::{Colour, Held, Job, Probed, Seeded, Steps, Tile};

use super::super::dither::door::{colours_of, hints_of, palette_of, samples_data, settings, tile_data, tiles_data};
use super::super::palette::{Palette, Subpalette, SubpaletteView};
use super::super::stats::argmax;
use super::super::{Sample, TileData};
use super::{
    FINAL_ALPHA, FRACTION_OF_PIXELS, MIN_COLOR_FACTOR, MIN_PALETTE_FACTOR, REFINEMENT_ITERATIONS, REPLACE_ALPHA,
    REPLACE_ITERATIONS, SampleCycle, grow_palette, mean_oklab, nudge, refine, replace_weakest, seed_palette,
};
use crate::prng::Prng;

/// As in `run`.
fn base_iterations(n: usize) -> usize {
    (FRACTION_OF_PIXELS * n as f32) as usize
}

/// Asks `work` of a palette, and leaves the hints as it did.
fn over(
    palette: &terms::Palette,
    tiles: &[Tile],
    hints: &mut [usize],
    work: impl FnOnce(&Palette, &[TileData]) -> Palette,
) -> terms::Palette {
    let tiles = tiles_data(tiles, hints);
    let changed = work(&palette_of(palette), &tiles);
    hints.copy_from_slice(&hints_of(&tiles));
    colours_of(&changed)
}

fn grown(palette: &Palette, tiles: &[TileData]) -> Palette {
    let mut grown = palette.clone();
    grow_palette(&mut grown, tiles, &[], &mut SampleCycle::new(0, 0), REPLACE_ALPHA, 0);
    grown
}

/// As at the end of a round of `seed_palette`.
fn worst(palette: &Palette, tiles: &[TileData]) -> usize {
    let mut distances = vec![0.0f32; palette.len()];
    for tile in tiles {
        if tile.is_empty(settings()) {
            continue;
        }
        let (sp_index, dist) = palette.best_fit(tile);
        distances[sp_index] += dist;
    }
    argmax(&distances)
}

impl Probed for crate::Door {
    fn next(&self, seed: u64, count: usize) -> (Vec<u64>, u64) {
        let mut prng = Prng::new(seed);
        let outputs = (0..count).map(|_| prng.output()).collect();
        (outputs, prng.state())
    }

    fn shuffle_state(&self, seed: u64, items: &mut [u32]) -> u64 {
        let mut prng = Prng::new(seed);
        prng.shuffle(items);
        prng.state()
    }

    fn cycle(&self, seed: u64, n: usize, draws: usize) -> Vec<usize> {
        let mut cycle = SampleCycle::new(n, seed);
        (0..draws).map(|_| cycle.next()).collect()
    }

    fn base_iterations(&self, n: usize) -> usize {
        base_iterations(n)
    }

    fn distance(&self, sub: &[Colour], tile: &Tile) -> f32 {
        let colors: Vec<_> = sub.iter().map(|&c| c.into()).collect();
        SubpaletteView::exact(&colors).whole_distance(&tile_data(tile, 0))
    }

    fn distance_within(&self, sub: &[Colour], tile: &Tile, limit: f32, lose: bool) -> Option<f32> {
        let colors: Vec<_> = sub.iter().map(|&c| c.into()).collect();
        SubpaletteView::exact(&colors).limited_distance(&tile_data(tile, 0), limit, lose)
    }

    fn replace_weakest(&self, palette: &terms::Palette, tiles: &[Tile], hints: &mut [usize]) -> terms::Palette {
        over(palette, tiles, hints, |p, t| replace_weakest(p, t, MIN_COLOR_FACTOR, MIN_PALETTE_FACTOR))
    }

    fn grow(&self, palette: &terms::Palette, tiles: &[Tile], hints: &mut [usize]) -> terms::Palette {
        over(palette, tiles, hints, grown)
    }

    fn refine(&self, palette: &terms::Palette, tiles: &[Tile], hints: &mut [usize]) -> terms::Palette {
        over(palette, tiles, hints, refine)
    }

    fn seed(&self, job: &Job, hints: &[usize], seed: u64) -> Seeded {
        let tiles = tiles_data(&job.tiles, hints);
        let samples = samples_data(job);
        let mut cycle = SampleCycle::new(samples.len(), seed);
        let b = base_iterations(samples.len());
        let palette = seed_palette(&tiles, &samples, &mut cycle, job.s, REPLACE_ALPHA, b, settings());
        Seeded {
            palette: colours_of(&palette),
            hints: hints_of(&tiles),
            order: cycle.order.iter().map(|&i| i as u32).collect(),
            state: cycle.prng.state(),
        }
    }

    fn worst(&self, palette: &terms::Palette, tiles: &[Tile], hints: &mut [usize]) -> usize {
        let tiles = tiles_data(tiles, hints);
        let index = worst(&palette_of(palette), &tiles);
        hints.copy_from_slice(&hints_of(&tiles));
        index
    }

    fn start(&self, job: &Job, hints: &[usize], seed: u64) -> Box<dyn Steps> {
        Box::new(Stepped::start(job, hints, seed))
    }

    fn resume(&self, job: &Job, held: &Held) -> Box<dyn Steps> {
        Box::new(Stepped::resume(job, held))
    }
}

/// A run between two draws.
struct Stepped {
    s: usize,
    c: usize,
    b: usize,
    tiles: Rc<Vec<TileData>>,
    samples: Vec<Sample>,
    cycle: SampleCycle,
    palette: Palette,
    least: Option<Palette>,
    least_error: f32,
    split_index: usize,
    stage: u64,
    rounds: usize,
    left: usize,
    made: u64,
}

impl Stepped {
    fn start(job: &Job, hints: &[usize], seed: u64) -> Self {
        let samples = samples_data(job);
        let mean = mean_oklab(samples.iter().map(|s| s.color)).expect("samples must not be empty");
        let mut run = Stepped {
            s: job.s,
            c: job.c,
            b: base_iterations(samples.len()),
            tiles: Rc::new(tiles_data(&job.tiles, hints)),
            cycle: SampleCycle::new(samples.len(), seed),
            samples,
            palette: Palette::seeded(mean, settings()),
            least: None,
            least_error: 0.0,
            split_index: 0,
            stage: 0,
            rounds: 0,
            left: 0,
            made: 0,
        };
        run.enter(0);
        run
    }

    /// The split of a round of seeding is chosen at its end, so a state between two draws need not hold it.
    fn resume(job: &Job, held: &Held) -> Self {
        let samples = samples_data(job);
        let (n, [state, stage, rounds, left, made, error]) = (samples.len(), held.words);
        let place = made as usize % n;
        Stepped {
            s: job.s,
            c: job.c,
            b: base_iterations(n),
            tiles: Rc::new(tiles_data(&job.tiles, &held.hints)),
            cycle: SampleCycle {
                order: held.order.iter().map(|&i| i as usize).collect(),
                index: if place == 0 && made > 0 { n } else { place },
                prng: Prng::new(state),
            },
            samples,
            palette: palette_of(&held.palette),
            least: (stage == 2).then(|| palette_of(&held.least)),
            least_error: f32::from_bits(error as u32),
            split_index: 0,
            stage,
            rounds: rounds as usize,
            left: left as usize,
            made,
        }
    }

    fn rounds_of(&self, stage: u64) -> usize {
        match stage {
            0 => self.s - 1,
            1 => self.c - 1,
            2 => REPLACE_ITERATIONS,
            4 => 1,
            _ => 0,
        }
    }

    /// Enters a stage and does all that is due before its first draw.
    fn enter(&mut self, stage: u64) {
        (self.stage, self.rounds) = (stage, 0);
        match stage {
            2 => {
                self.least_error = self.palette.mse(&self.tiles);
                self.least = Some(self.palette.clone());
            }
            3 => {
                self.palette = self.least.take().unwrap();
                self.least_error = 0.0;
            }
            6 => {
                for _ in 0..REFINEMENT_ITERATIONS {
                    self.palette = refine(&self.palette, &self.tiles);
                }
            }
            _ => {}
        }
        self.begin_round();
    }

    /// What a round does before its draws; a stage with no round left makes room for the next.
    fn begin_round(&mut self) {
        let stop = matches!(self.stage, 3 | 5 | 6 | 7);
        if stop {
            self.left = 0;
            return;
        }
        if self.rounds == self.rounds_of(self.stage) {
            return self.enter(self.stage + 1);
        }
        match self.stage {
            0 => self.palette.duplicate_palette(self.split_index),
            1 => self.palette = grown(&self.palette, &self.tiles),
            2 => self.palette = replace_weakest(&self.palette, &self.tiles, MIN_COLOR_FACTOR, MIN_PALETTE_FACTOR),
            _ => {}
        }
        self.left = if self.stage == 4 { self.b * 10 } else { self.b };
        if self.left == 0 {
            self.end_round();
        }
    }

    /// What a round does after its draws.
    fn end_round(&mut self) {
        match self.stage {
            0 => self.split_index = worst(&self.palette, &self.tiles),
            2 => {
                let mse = self.palette.mse(&self.tiles);
                if mse < self.least_error {
                    self.least_error = mse;
                    self.least = Some(self.palette.clone());
                }
            }
            _ => {}
        }
        self.rounds += 1;
        self.begin_round();
    }
}

impl Steps for Stepped {
    fn held(&self) -> Held {
        let error = if self.stage == 2 { u64::from(self.least_error.to_bits()) } else { 0 };
        Held {
            palette: colours_of(&self.palette),
            least: self.least.as_ref().map(colours_of).unwrap_or_default(),
            hints: hints_of(&self.tiles),
            order: self.cycle.order.iter().map(|&i| i as u32).collect(),
            words: [
                self.cycle.prng.state(),
                self.stage,
                self.rounds as u64,
                self.left as u64,
                self.made,
                error,
            ],
        }
    }

    fn advance(&mut self, draws: u64) -> u64 {
        let mut done = 0;
        while done < draws && self.left > 0 {
            let alpha = if self.stage == 4 { FINAL_ALPHA } else { REPLACE_ALPHA };
            nudge(&mut self.palette, &self.tiles, &self.samples, &mut self.cycle, alpha, 1);
            done += 1;
            self.made += 1;
            self.left -= 1;
            if self.left == 0 {
                self.end_round();
            }
        }
        done
    }

    fn hand_in(&mut self, reduced: &[Colour]) {
        let sub = |part: &[Colour]| Subpalette::from_colors(part.iter().map(|&c| c.into()).collect(), settings());
        self.palette = Palette::new(reduced.chunks(self.c).map(sub).collect(), settings());
        self.enter(self.stage + 1);
    }
}
