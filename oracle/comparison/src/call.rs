//! A call of a run as a stranger may make it: the job, the memory lent, what is asked; and what comes of it.

use terms::{Held, Job, Palette, sizes_word};

use crate::lent::nans;
use crate::table::{Given, Refusal};
use crate::tally::Same;

#[derive(Clone, Debug)]
pub struct Call {
    pub given: Given,
    pub n: usize,
    pub samples: Vec<u32>,
    pub memory: Memory,
}

/// What a run is lent to write.
#[derive(Clone, Debug)]
pub struct Memory {
    pub order: Vec<u32>,
    pub hints: Vec<u32>,
    pub palette: Vec<f32>,
    pub least: Vec<f32>,
    pub record: Vec<u64>,
}

#[derive(Clone, Debug)]
pub enum Ask {
    Start(u64),
    Advance(u64),
    /// The reduced colours.
    HandIn(Vec<f32>),
    /// The room for the colours.
    Result(Vec<f32>),
}

#[derive(Clone, Debug)]
pub struct Outcome {
    pub refusal: Refusal,
    pub draws: u64,
    pub memory: Memory,
    /// What was handed in, or the room for the result.
    pub colours: Vec<f32>,
    /// Whatever the call must not write is as it was.
    pub kept: bool,
}

impl Call {
    /// On a job that is accepted, lent memory that holds nothing of use.
    pub fn of(job: &Job) -> Self {
        let (n, places) = (job.samples.len(), 3 * job.s * job.c);
        Call {
            given: Given::new(job.size, &vec![vec![[0.0; 3]; job.c]; job.s], &job.tiles, job.weight),
            n,
            samples: job.samples.iter().flat_map(|s| [s.tile as u32, s.place as u32]).collect(),
            memory: Memory {
                order: vec![u32::MAX; n],
                hints: vec![u32::MAX; job.tiles.len()],
                palette: nans(places),
                least: nans(places),
                record: vec![u64::MAX; 7],
            },
        }
    }

    /// The tile and the place that a sample names.
    pub fn sample(&self, i: usize) -> (usize, usize) {
        (self.samples[2 * i] as usize, self.samples[2 * i + 1] as usize)
    }

    /// S, C, T and n.
    pub fn sizes(&self) -> [usize; 4] {
        [self.given.s, self.given.c, self.given.t, self.n]
    }

    pub fn stage(&self) -> u64 {
        self.memory.record[1]
    }

    /// The same with no number in either palette: only a start is accepted then.
    pub fn without_numbers(&self) -> Self {
        let mut call = self.clone();
        [&mut call.memory.palette, &mut call.memory.least].into_iter().for_each(|floats| *floats = nans(floats.len()));
        call
    }
}

impl Memory {
    /// A run of the Rust's as it stands, with zeros where no colour is present, and the word of the job's sizes, which it does not keep.
    pub fn standing(job: &Job, held: &Held) -> Self {
        let flat = |palette: &Palette| {
            let mut all = vec![[0.0; 3]; job.s * job.c];
            for (i, sub) in palette.iter().enumerate() {
                all[i * job.c..][..sub.len()].copy_from_slice(sub);
            }
            all.into_flattened()
        };
        Memory {
            order: held.order.clone(),
            hints: held.hints.iter().map(|&hint| hint as u32).collect(),
            palette: flat(&held.palette),
            least: flat(&held.least),
            record: held.words.into_iter().chain([sizes_word(job.sizes())]).collect(),
        }
    }
}

impl Ask {
    pub fn name(&self) -> &'static str {
        match self {
            Ask::Start(_) => "start",
            Ask::Advance(_) => "advance",
            Ask::HandIn(_) => "hand-in",
            Ask::Result(_) => "result",
        }
    }

    pub fn colours(&self) -> Option<&[f32]> {
        match self {
            Ask::HandIn(colours) | Ask::Result(colours) => Some(colours),
            _ => None,
        }
    }

    pub fn colours_mut(&mut self) -> Option<&mut Vec<f32>> {
        match self {
            Ask::HandIn(colours) | Ask::Result(colours) => Some(colours),
            _ => None,
        }
    }
}

impl Outcome {
    /// A number with its index, no draw, nothing written.
    pub fn unchanged(refusal: Refusal, call: &Call, ask: &Ask) -> Self {
        let colours = ask.colours().unwrap_or_default().to_vec();
        Outcome { refusal, draws: 0, memory: call.memory.clone(), colours, kept: true }
    }

    /// All floats that are lent to be written, as they are left.
    pub fn floats(&self) -> impl Iterator<Item = &f32> {
        [&self.memory.palette, &self.memory.least, &self.colours].into_iter().flatten()
    }
}

/// In every bit, those of a NaN too: they are only carried about.
impl Same for Memory {
    fn same(&self, other: &Memory) -> bool {
        let numbers = self.order == other.order && self.hints == other.hints && self.record == other.record;
        numbers && self.palette[..].untouched(&other.palette) && self.least[..].untouched(&other.least)
    }
}

impl Same for Outcome {
    fn same(&self, other: &Outcome) -> bool {
        let told = (self.refusal, self.draws, self.kept) == (other.refusal, other.draws, other.kept);
        told && self.memory.same(&other.memory) && self.colours[..].untouched(&other.colours)
    }
}
