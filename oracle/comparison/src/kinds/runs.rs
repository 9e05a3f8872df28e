//! The run's public calls: whole runs in calls of any size, some of them taken up by another process; and single calls on memory
//! that a stranger made, damaged or not. Number, index, draws and all lent memory of each call by docs/SCOPE.md as reading/ has it; the
//! runs also beside the Rust, each call beside its stages in steps, stops and result beside its whole run.

use answers::{probed, rust};
use terms::jobs::{self, Colours};
use terms::rng::Rng;
use terms::{Colour, Job, Ran, Sample, Steps, Tile};

use super::{JOBS, Kind, in_turn, kind};
use crate::call::{Ask, Call, Memory, Outcome};
use crate::damage::runs as damage;
use crate::lent::nans;
use crate::reading::run::outcome;
use crate::table::{self, Refusal};
use crate::tally::Tally;
use crate::{ours, saved};

pub const KINDS: &[Kind] = &[
    kind("run calls", 3_000, 40_000, calls).bringing(JOBS),
    kind("whole runs", 300, 17_000, whole).bringing(JOBS),
    kind("largest run", 2, 20, largest).bringing(JOBS),
];

/// Every call on one memory, and now and then once more with no number in its palettes.
fn calls(rng: &mut Rng, _: u64, tally: &mut Tally) {
    let mut call = damage::good(rng);
    let mut asks = damage::asks(rng, &call);
    damage::damaged(rng, &mut call, &mut asks);
    each_asked(&call, &asks, tally);
    if rng.once_in(4) {
        each_asked(&call.without_numbers(), &asks, tally);
    }
}

fn each_asked(call: &Call, asks: &[Ask], tally: &mut Tally) {
    for ask in asks {
        asked(call, ask, tally);
    }
}

/// Gives what the scope says of it.
pub fn asked(call: &Call, ask: &Ask, tally: &mut Tally) -> Refusal {
    let right = outcome(call, ask);
    let refusal = right.refusal;
    tally.answered(ask.name(), call.given.size, refusal);
    if refusal.number == 0 {
        tally.tiles(&call.given.tiles());
    }
    tally.add("draws", right.draws);
    tally.left(right.floats());
    tally.same(ours::answer(call, ask), right, || format!("{ask:?} {call:?}"));
    refusal
}

/// What a host hands in at a stop.
enum Reduction {
    /// Each component rounded to a multiple of a step, as a console's own colours are.
    Round(f32),
    /// The working colours, cut to what a job may hold.
    Cut,
    /// Any colours.
    Any,
}

impl Reduction {
    fn any(rng: &mut Rng) -> Self {
        match rng.below(8) {
            0 => Reduction::Any,
            1 => Reduction::Cut,
            _ => Reduction::Round(rng.pick(&[1.0 / 31.0, 1.0 / 255.0, 0.125, 0.25, 0.5])),
        }
    }

    fn reduced(&self, rng: &mut Rng, job: &Job, working: &[f32]) -> Vec<f32> {
        match self {
            Reduction::Round(step) => working.iter().map(|x| ((x / step).round() * step).clamp(-2.0, 2.0)).collect(),
            Reduction::Cut => working.iter().map(|x| x.clamp(-2.0, 2.0)).collect(),
            Reduction::Any => jobs::reduced(rng, job.s, job.c).into_flattened(),
        }
    }
}

/// A run by our calls alone, beside the Rust's.
pub struct Whole {
    pub job: Job,
    hints: Vec<usize>,
    seed: u64,
    reduction: Reduction,
    /// One run in four changes processes now and then.
    leaves: bool,
    /// Our memory at each stop, and what was handed in there.
    stops: Vec<Memory>,
    handed: Vec<Vec<Colour>>,
    /// The result was taken.
    finished: bool,
    /// Our run as it stands.
    pub call: Call,
    steps: Box<dyn Steps>,
}

/// A call, what the scope says of it, and the Rust's memory after it.
struct Planned {
    ask: Ask,
    right: Outcome,
    rusts: (u64, Memory),
}

fn whole(rng: &mut Rng, _: u64, tally: &mut Tally) {
    let most = rng.pick(&[60, 60, 250, 1_000]);
    let job = jobs::job(rng, most);
    Whole::of(rng, job).compare(rng, tally);
}

/// At the limits of all sizes: 16 subpalettes of 16 colours, 1,024 tiles, 16,384 tile colours and samples; of the larger tiles 62 have as
/// many colours as can be, 512 one that is counted as often.
fn largest(rng: &mut Rng, case: u64, tally: &mut Tally) {
    let (size, colours) = (in_turn(case), Colours::any(rng, 2.0));
    let lengths = if size == 64 { vec![16; 1024] } else { [vec![256; 62], vec![1; 512], vec![0; 450]].concat() };
    let count = |n: usize| if n == 1 { size as u32 } else { 1 };
    let tile = |&n: &usize| Tile { colours: colours.many(rng, n, 2.0), counts: vec![count(n); n] };
    let tiles: Vec<Tile> = lengths.iter().map(tile).collect();
    let full = lengths.iter().filter(|&&n| n > 0).count();
    let sample = |i: usize| Sample { tile: i % full, place: i / full % lengths[i % full] };
    let samples = (0..16_384).map(sample).collect();
    let job = Job { size, s: 16, c: 16, weight: 2.15, tiles, samples };
    Whole::of(rng, job).compare(rng, tally);
}

impl Whole {
    pub fn of(rng: &mut Rng, job: Job) -> Self {
        let (hints, seed) = (jobs::hints(rng, job.tiles.len(), job.s), rng.bits());
        let mut call = Call::of(&job);
        call.memory.hints = hints.iter().map(|&hint| hint as u32).collect();
        let steps = probed(job.weight).start(&job, &hints, seed);
        let (reduction, leaves) = (Reduction::any(rng), rng.once_in(4));
        let (stops, handed) = Default::default();
        Whole { job, hints, seed, reduction, leaves, stops, handed, finished: false, call, steps }
    }

    fn compare(mut self, rng: &mut Rng, tally: &mut Tally) {
        self.finish(rng, tally);
        self.ends(tally);
    }

    pub fn finish(&mut self, rng: &mut Rng, tally: &mut Tally) {
        while !self.finished {
            self.go_on(rng, 8, tally);
        }
    }

    /// Some calls of ours, `most` of them at most, here or in another process, each beside what is right.
    pub fn go_on(&mut self, rng: &mut Rng, most: usize, tally: &mut Tally) {
        if self.call.stage() != 2 && rng.once_in(3) {
            // nobody looks there, and nobody writes
            self.call.memory.least = nans(self.call.memory.least.len());
        }
        let leg = self.leg(rng, most);
        let asks: Vec<Ask> = leg.iter().map(|planned| planned.ask.clone()).collect();
        let ours = if self.leaves && rng.once_in(3) {
            tally.add("taken up by another process", 1);
            saved::taken_up(&self.call, &asks).unwrap_or_default()
        } else {
            ours::answers(&mut self.call.clone(), &asks)
        };
        tally.same(ours.len(), leg.len(), || "calls answered".to_string());
        for (ours, planned) in ours.into_iter().zip(leg) {
            let accepted = planned.right.refusal.number == 0;
            self.finished |= matches!(planned.ask, Ask::Result(_)) && accepted;
            if matches!(planned.ask, Ask::HandIn(_)) && accepted {
                self.stops.push(self.call.memory.clone());
            }
            self.call.memory = planned.right.memory.clone();
            self.same(ours, planned, tally);
        }
    }

    /// Goes on from here with another job, of the same sizes: no whole run of the Rust's is to be compared then.
    pub fn resume_on(&mut self, job: Job) {
        self.steps = probed(job.weight).resume(&job, &self.steps.held());
        self.call = Call { memory: self.call.memory.clone(), ..Call::of(&job) };
        self.job = job;
    }

    /// Some calls from here on, as the scope and the Rust go on; the first of a run is start.
    fn leg(&mut self, rng: &mut Rng, most: usize) -> Vec<Planned> {
        let mut call = self.call.clone();
        let mut leg = Vec::new();
        for _ in 0..rng.among(1, most) {
            let ask = self.next(rng, &call);
            let right = outcome(&call, &ask);
            let accepted = right.refusal.number == 0;
            // a run in which the reading refuses what belongs to its moment would never end
            assert!(accepted || right.refusal.number == 11, "{} is read as {:?}", ask.name(), right.refusal);
            let draws = match &ask {
                Ask::Advance(allotment) if accepted => self.steps.advance(*allotment),
                Ask::HandIn(reduced) if accepted => {
                    self.handed.push(table::colours(reduced));
                    self.steps.hand_in(self.handed.last().unwrap());
                    0
                }
                _ => 0,
            };
            call.memory = right.memory.clone();
            let ended = matches!(ask, Ask::Result(_)) && accepted;
            let mut rusts = Memory::standing(&self.job, &self.steps.held());
            if call.stage() != 2 {
                // the Rust has no second palette then
                rusts.least = right.memory.least.clone();
            }
            leg.push(Planned { ask, right, rusts: (draws, rusts) });
            if ended {
                break;
            }
        }
        leg
    }

    /// The call that belongs to this moment, and now and then one that does not.
    fn next(&self, rng: &mut Rng, call: &Call) -> Ask {
        if call.stage() > 7 {
            return Ask::Start(self.seed);
        }
        let stage = if rng.once_in(30) { rng.below(8) as u64 } else { call.stage() };
        match stage {
            7 => Ask::Result(nans(call.memory.palette.len())),
            3 | 5 | 6 => Ask::HandIn(self.reduction.reduced(rng, &self.job, &call.memory.palette)),
            _ => Ask::Advance(allotment(rng, call.n as u64 / 10)),
        }
    }

    fn same(&self, ours: Outcome, planned: Planned, tally: &mut Tally) {
        let Planned { ask, right, rusts } = planned;
        tally.answered(ask.name(), self.job.size, right.refusal);
        tally.add("draws", right.draws);
        tally.left(right.floats());
        let shown = || format!("{ask:?} of seed {:x}, {:?}", self.seed, self.job);
        tally.same((right.draws, right.memory.clone()), rusts, shown);
        tally.same(ours, right, shown);
    }

    /// What is seen at the stops and at the end, beside the Rust's whole run.
    fn ends(&self, tally: &mut Tally) {
        let handed = self.handed.clone();
        let reduce = Box::new(move |stop: usize, place: usize, _| handed[stop][place]);
        let Ran { stops: seen, result, hints } = rust(self.job.weight).run(&self.job, &self.hints, self.seed, reduce);
        let narrow = |hints: &[usize]| hints.iter().map(|&hint| hint as u32).collect::<Vec<_>>();
        let flat = |palette: terms::Palette| palette.into_iter().flatten().flatten().collect::<Vec<_>>();
        let shown = || format!("seed {:x}, {:?}", self.seed, self.job);
        tally.same(self.stops.len(), seen.len(), shown);
        for (ours, rusts) in self.stops.iter().zip(seen) {
            let rusts = (flat(rusts.palette), narrow(&rusts.hints));
            tally.same((ours.palette.clone(), ours.hints.clone()), rusts, shown);
        }
        let last = &self.call.memory;
        tally.same((last.palette.clone(), last.hints.clone()), (flat(result), narrow(&hints)), shown);
        tally.add("runs", 1);
        tally.add(if self.job.size == 64 { "runs at size 64" } else { "runs at size 256" }, 1);
        tally.tiles(&self.job.tiles);
        tally.add("runs at the Rust's own weight", u64::from(self.job.weight == 2.15));
    }
}

/// None, one, a few, about a round, or all there are.
fn allotment(rng: &mut Rng, b: u64) -> u64 {
    let any = rng.below(3 * b as usize + 2) as u64;
    if rng.once_in(25) { u64::MAX } else { rng.pick(&[0, 1, 2, 3, 7, b.saturating_sub(1), b, b + 1, any, any]) }
}
