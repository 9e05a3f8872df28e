//! The oracle held to itself: its copies of the Rust to the unchanged files, its run in steps to the whole run, its reading of the
//! sheet to the example of docs/SCOPE.md; that one NaN in another's place is seen.

use answers::requests::flat;
use answers::{probed, rust};
use terms::jobs;
use terms::rng::Rng;
use terms::sheet::{EDITIONS, written};
use terms::{Colour, Job, Ran};

use super::{Kind, kind, whole};
use crate::call::{Ask, Call, Outcome};
use crate::lent::{self, nans};
use crate::sheet;
use crate::tally::{Same, Tally};

pub const KINDS: &[Kind] = &[
    kind("oracle copies", 150, 1_500, copies),
    kind("oracle steps", 150, 1_500, steps),
    whole("oracle sheet", 2, example),
    whole("oracle NaNs", 1, replaced),
];

struct Case {
    job: Job,
    hints: Vec<usize>,
    seed: u64,
    reduced: Vec<Vec<Colour>>,
}

fn case(rng: &mut Rng) -> Case {
    let job = jobs::job(rng, 300);
    let hints = jobs::hints(rng, job.tiles.len(), job.s);
    let reduced = (0..3).map(|_| jobs::reduced(rng, job.s, job.c)).collect();
    Case { job, hints, seed: rng.bits(), reduced }
}

impl Case {
    fn ran(&self, rust: &dyn terms::Rust) -> Ran {
        let reduced = self.reduced.clone();
        rust.run(&self.job, &self.hints, self.seed, Box::new(move |stop, place, _| reduced[stop][place]))
    }
}

/// The probed copy at the Rust's own weight.
fn copies(rng: &mut Rng, _: u64, tally: &mut Tally) {
    let mut case = case(rng);
    case.job.weight = 2.15;
    let (copy, whole) = (case.ran(probed(2.15)), case.ran(rust(2.15)));
    for (a, b) in copy.stops.iter().zip(&whole.stops) {
        tally.same((a.palette.clone(), a.hints.clone()), (b.palette.clone(), b.hints.clone()), || "a stop".to_string());
    }
    tally.same((copy.result, copy.hints), (whole.result, whole.hints), || "the result".to_string());
}

/// The run in steps, cut anywhere, and now and then resumed from what it held.
fn steps(rng: &mut Rng, _: u64, tally: &mut Tally) {
    let case = case(rng);
    let whole = case.ran(rust(case.job.weight));
    let mut run = probed(case.job.weight).start(&case.job, &case.hints, case.seed);
    let mut stop = 0;
    loop {
        let held = run.held();
        match held.words[1] {
            3 | 5 | 6 => {
                let seen = &whole.stops[stop];
                let at = (held.palette, held.hints);
                tally.same(at, (seen.palette.clone(), seen.hints.clone()), || format!("stop {stop}"));
                run.hand_in(&case.reduced[stop]);
                stop += 1;
            }
            7 => {
                let (s, c) = (case.job.s, case.job.c);
                let made = (s + c + 18) as u64 * probed(2.15).base_iterations(case.job.samples.len()) as u64;
                tally.same(held.words[4], made, || "draws made".to_string());
                let result = (flat(&held.palette, s, c), held.hints);
                tally.same(result, (flat(&whole.result, s, c), whole.hints), || "the result".to_string());
                return;
            }
            _ if rng.once_in(3) => run = probed(case.job.weight).resume(&case.job, &held),
            _ => drop(run.advance(1 + rng.below(40) as u64)),
        }
    }
}

/// The scope's example of a sheet, and what `fit` prints of it, which is the same of either edition.
fn example(_: &mut Rng, case: u64, tally: &mut Tally) {
    let bytes = written(&sheet::example(EDITIONS[case as usize]));
    // two bits more in each of four tiles, and in each of three counts
    let (size, edition) = [(77, 0x11), (79, 0x21)][case as usize];
    let begin = [0x54, 0x46, 0x49, 0x54, edition, 0x00, 0x0c, 0xfe];
    tally.same((bytes.len(), bytes[..8].to_vec()), (size, begin.to_vec()), || "the example's bytes".to_string());
    let lines = [
        "tiles 4 subpalettes 2",
        "tile 0 sub 0 dist 3e800000 next 1",
        "tile 1 sub 0 dist 00000000 next 0",
        "tile 2 sub 0 dist 3f000000 next 1",
        "tile 3 sub 1 dist 00000000 next 0",
        "load 0 2",
        "load 1 1",
        "blank 1",
        "",
    ];
    let fitted = sheet::fitted::fitted(&bytes).into_bytes();
    tally.same(fitted, lines.join("\n").into_bytes(), || "the example's lines".to_string());
}

/// NaNs are lent that differ from each other and from those that arithmetic makes of numbers; whichever becomes one of these, it is seen.
fn replaced(rng: &mut Rng, _: u64, tally: &mut Tally) {
    const MADE: [u32; 2] = [0x7fc0_0000, 0xffc0_0000];
    let all = nans(15_420);
    let mut bits = [lent::bits(&all), MADE.to_vec()].concat();
    bits.sort_unstable();
    bits.dedup();
    let alike = (all.len() + MADE.len() - bits.len(), all.iter().filter(|x| !x.is_nan()).count());
    tally.same(alike, (0, 0), || "NaNs with the same bits, numbers among them".to_string());
    let call = Call::of(&jobs::job(rng, 60));
    let places = call.memory.palette.len();
    let left = Outcome::unchanged(16.into(), &call, &Ask::Result(nans(places)));
    for (k, made) in (0..places).flat_map(|k| MADE.map(|made| (k, f32::from_bits(made)))) {
        let mut memory = lent::floats(&all[..places]);
        unsafe { *memory.as_mut_ptr().add(k) = made };
        let mut changed = [left.clone(), left.clone(), left.clone()];
        (changed[0].memory.palette[k], changed[1].memory.least[k], changed[2].colours[k]) = (made, made, made);
        let unseen = memory.untouched() || memory.bits() == lent::bits(&all[..places]);
        let unseen = unseen || changed.iter().any(|changed| changed.same(&left));
        tally.same(unseen, false, || format!("place {k} of {places}"));
    }
}
