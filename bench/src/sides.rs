//! The two sides, each with the works that are measured. A work gives a digest of its answers, the same on both sides.

use foreign::shipped::Memory;
use terms::{Colour, Job, Palette};
use timed::{Door, Make, Standing, Timed};

use crate::ours::{Lent, copy};

pub const SEED: u64 = 1;
const NEAREST: usize = 4_096;
const DRAWS: usize = 1_024;
const ALPHA: f32 = 0.5;

#[derive(Clone, Copy, PartialEq)]
pub enum Work {
    Nearest,
    BestFit,
    BestTwo,
    Mse,
    Draw,
    Round,
    Assign,
    Run,
}

impl Work {
    pub fn named(name: &str) -> Self {
        match name {
            "nearest" => Work::Nearest,
            "best_fit" => Work::BestFit,
            "best_two" => Work::BestTwo,
            "mse" => Work::Mse,
            "draw" => Work::Draw,
            "round" => Work::Round,
            "assign" => Work::Assign,
            "run" => Work::Run,
            _ => panic!("no work is named {name}"),
        }
    }

    /// The calls of one time through.
    pub fn calls(self, job: &Job) -> usize {
        match self {
            Work::Nearest => NEAREST,
            Work::BestFit | Work::BestTwo => job.tiles.len(),
            Work::Draw => DRAWS,
            Work::Mse | Work::Round | Work::Assign | Work::Run => 1,
        }
    }
}

/// As a console's palette is coarser than Oklab.
pub fn reduce(colour: Colour) -> Colour {
    colour.map(|x| (x * 64.0).trunc() / 64.0)
}

pub struct Digest(pub u64);

impl Digest {
    #[inline]
    fn take(&mut self, x: usize) {
        self.0 = (self.0.rotate_left(5) ^ x as u64).wrapping_mul(0x9e37_79b9_7f4a_7c15);
    }

    #[inline]
    fn take_float(&mut self, x: f32) {
        self.take(x.to_bits() as usize);
    }

    fn take_all<'a>(&mut self, xs: impl IntoIterator<Item = &'a f32>) {
        xs.into_iter().for_each(|&x| self.take_float(x));
    }
}

pub trait Side {
    fn work(&mut self, work: Work) -> u64;
}

pub struct Ours<'a> {
    pub lent: Lent,
    pub job: &'a Job,
    pub from: Memory,
    pub now: Memory,
    pub questions: Vec<(usize, Colour)>,
}

pub struct Rusts<'a> {
    pub job: &'a Job,
    pub from: Memory,
    pub timed: Box<dyn Timed>,
    pub questions: Vec<(usize, Colour)>,
}

/// The hint of a tile before it is fitted: where it last was, for one in four the next one.
fn disturbed(from: &Memory, s: usize, tile: usize) -> usize {
    let hint = from.hints[tile] as usize;
    if tile % 4 == 0 { (hint + 1) % s } else { hint }
}

impl Side for Ours<'_> {
    fn work(&mut self, work: Work) -> u64 {
        let Ours { lent, job, from, now, .. } = self;
        let (mut digest, [mut dist, mut second]) = (Digest(0), [0.0; 2]);
        let disturb = |now: &mut Memory| {
            (0..job.tiles.len()).for_each(|tile| now.hints[tile] = disturbed(from, job.s, tile) as u32);
        };
        match work {
            Work::Nearest => {
                let parts: Vec<&[f32]> = now.palette.chunks(3 * job.c).collect();
                for &(sub, q) in &self.questions {
                    digest.take(lent.nearest(parts[sub], q, &mut dist));
                    digest.take_float(dist);
                }
            }
            Work::BestFit => {
                disturb(now);
                for tile in 0..job.tiles.len() {
                    digest.take(lent.best_fit(now, tile, &mut dist));
                    digest.take_float(dist);
                }
            }
            Work::BestTwo => {
                disturb(now);
                for tile in 0..job.tiles.len() {
                    digest.take(lent.best_two(now, tile, &mut dist, &mut second));
                    digest.take_float(dist);
                    digest.take_float(second);
                }
            }
            Work::Mse => {
                disturb(now);
                digest.take_float(lent.mse(now));
            }
            Work::Draw => {
                copy(from, now);
                for _ in 0..DRAWS {
                    lent.draw(now, ALPHA);
                }
                digest.take_all(&now.palette);
            }
            Work::Round => {
                copy(from, now);
                lent.advance(now, job.samples.len() as u64 / 10);
                digest.take(now.record[5] as usize);
                digest.take_all(&now.palette);
            }
            Work::Assign => {
                disturb(now);
                let mut out = vec![0; job.tiles.len()];
                lent.assign(now, &mut out);
                out.iter().for_each(|&sub| digest.take(sub as usize));
            }
            Work::Run => {
                now.hints.fill(0);
                lent.start(now, SEED);
                lent.advance(now, u64::MAX);
                lent.hand_in(now, reduce);
                lent.advance(now, u64::MAX);
                lent.hand_in(now, reduce);
                lent.hand_in(now, reduce);
                assert_eq!(now.record[1], 7);
                digest.take_all(&now.palette);
            }
        }
        digest.0
    }
}

fn flat(palette: &Palette) -> impl Iterator<Item = &f32> {
    palette.iter().flatten().flatten()
}

impl Side for Rusts<'_> {
    fn work(&mut self, work: Work) -> u64 {
        let Rusts { job, from, timed, .. } = self;
        let (mut digest, [mut dist, mut second]) = (Digest(0), [0.0; 2]);
        let disturb = |timed: &mut Box<dyn Timed>| {
            (0..job.tiles.len()).for_each(|tile| timed.set_hint(tile, disturbed(from, job.s, tile)));
        };
        match work {
            Work::Nearest => {
                for &(sub, q) in &self.questions {
                    digest.take(timed.nearest(sub, q, &mut dist));
                    digest.take_float(dist);
                }
            }
            Work::BestFit => {
                disturb(timed);
                for tile in 0..job.tiles.len() {
                    digest.take(timed.best_fit(tile, &mut dist));
                    digest.take_float(dist);
                }
            }
            Work::BestTwo => {
                disturb(timed);
                for tile in 0..job.tiles.len() {
                    digest.take(timed.best_two(tile, &mut dist, &mut second));
                    digest.take_float(dist);
                    digest.take_float(second);
                }
            }
            Work::Mse => {
                disturb(timed);
                digest.take_float(timed.mse());
            }
            Work::Draw => {
                timed.restore();
                for _ in 0..DRAWS {
                    timed.draw(ALPHA);
                }
                digest.take_all(flat(&timed.colours()));
            }
            Work::Round => {
                timed.restore();
                digest.take_float(timed.round());
                digest.take_all(flat(&timed.colours()));
            }
            Work::Assign => {
                disturb(timed);
                timed.assign().into_iter().for_each(|sub| digest.take(sub));
            }
            Work::Run => digest.take_all(flat(&timed.run(SEED, reduce))),
        }
        digest.0
    }
}

/// What `nearest` is asked: the samples' colours, each of the subpalette that its tile was last at.
fn questions(job: &Job, from: &Memory) -> Vec<(usize, Colour)> {
    let ask = |s: &terms::Sample| (from.hints[s.tile] as usize, job.tiles[s.tile].colours[s.place]);
    job.samples.iter().map(ask).cycle().take(NEAREST).collect()
}

/// Both sides of a job, at a state that is told.
pub fn ours<'a>(job: &'a Job, from: &Memory) -> Ours<'a> {
    Ours { lent: Lent::new(job), job, from: from.clone(), now: from.clone(), questions: questions(job, from) }
}

pub fn rusts<'a>(job: &'a Job, from: &Memory) -> Rusts<'a> {
    let palette = |all: &[f32]| all.as_chunks().0.chunks(job.c).map(|sub| sub.to_vec()).collect();
    let standing = Standing {
        palette: palette(&from.palette),
        least: palette(&from.least),
        hints: from.hints.iter().map(|&hint| hint as usize).collect(),
        order: from.order.iter().map(|&entry| entry as usize).collect(),
        generator: from.record[0],
        made: from.record[4],
        error: f32::from_bits(from.record[5] as u32),
    };
    Rusts { job, from: from.clone(), timed: Door.make(job, &standing), questions: questions(job, from) }
}
