//! The run's public calls as a host has them, from the library that ships: they take whatever a stranger lends, and answer in a word.

use super::Job;
use crate::call::{Ask, Call, Memory, Outcome};
use crate::lent::{self, Lent};
use crate::table::Refusal;
use foreign::shipped;
use foreign::{dunkafeto_advance, dunkafeto_hand_in, dunkafeto_result, dunkafeto_start, lend_run};

/// What an answer word says: the refusal, and the draws.
pub fn said(word: u64) -> (Refusal, u64) {
    let (number, index, draws) = shipped::said(word);
    (Refusal { number, index }, draws)
}

/// What comes of a call: lent between guards, made, and all of it looked at afterwards.
pub fn answer(call: &Call, ask: &Ask) -> Outcome {
    let (job, mut memory) = (Job::lent(&call.given), Lents::of(call));
    let mut colours = lent::floats(ask.colours().unwrap_or_default());
    let told = match ask {
        Ask::Start(seed) => start(&job, &mut memory, *seed),
        Ask::Advance(allotment) => advance(&job, &mut memory, *allotment),
        Ask::HandIn(_) => hand_in(&job, &mut memory, &colours),
        Ask::Result(_) => result(&job, &memory, &mut colours),
    };
    let kept = job.untouched() && memory.guarded() && colours.guarded();
    let (refusal, draws) = said(told);
    Outcome { refusal, draws, memory: memory.memory(), colours: colours.values().to_vec(), kept }
}

/// What comes of calls in a row, each on the memory that the one before left.
pub fn answers(call: &mut Call, asks: &[Ask]) -> Vec<Outcome> {
    let next = |ask: &Ask| {
        let outcome = answer(call, ask);
        call.memory = outcome.memory.clone();
        outcome
    };
    asks.iter().map(next).collect()
}

/// What a run is lent.
struct Lents {
    n: usize,
    samples: Lent<u32>,
    order: Lent<u32>,
    hints: Lent<u32>,
    palette: Lent<f32>,
    least: Lent<f32>,
    record: Lent<u64>,
}

impl Lents {
    fn of(call: &Call) -> Self {
        Lents {
            n: call.n,
            samples: lent::words(&call.samples),
            order: lent::words(&call.memory.order),
            hints: lent::words(&call.memory.hints),
            palette: lent::floats(&call.memory.palette),
            least: lent::floats(&call.memory.least),
            record: lent::long_words(&call.memory.record),
        }
    }

    fn memory(&self) -> Memory {
        Memory {
            order: self.order.values().to_vec(),
            hints: self.hints.values().to_vec(),
            palette: self.palette.values().to_vec(),
            least: self.least.values().to_vec(),
            record: self.record.values().to_vec(),
        }
    }

    /// Nothing around the memory was written, and of it not the samples.
    fn guarded(&self) -> bool {
        let numbers = self.samples.untouched() && self.order.guarded() && self.hints.guarded();
        numbers && self.palette.guarded() && self.least.guarded() && self.record.guarded()
    }
}

fn start(job: &Job, held: &mut Lents, seed: u64) -> u64 {
    unsafe { lend_run!(dunkafeto_start, job, held, held, mut / mut, [seed]) }
}

fn advance(job: &Job, held: &mut Lents, allotment: u64) -> u64 {
    unsafe { lend_run!(dunkafeto_advance, job, held, held, mut / mut, [], allotment) }
}

fn hand_in(job: &Job, held: &mut Lents, reduced: &Lent<f32>) -> u64 {
    unsafe { lend_run!(dunkafeto_hand_in, job, held, held, mut / ref, [], ref reduced) }
}

fn result(job: &Job, held: &Lents, out: &mut Lent<f32>) -> u64 {
    unsafe { lend_run!(dunkafeto_result, job, held, held, ref / ref, [], mut out) }
}
