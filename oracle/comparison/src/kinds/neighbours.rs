//! A run taken up on the neighbour's job, at any moment. Where one of its sizes is another, every call but start answers 20 and writes
//! nothing, whatever the words ahead say; where all are equal, the run is not told apart from the neighbour's own and goes on there, as
//! docs/SCOPE.md and the Rust do from that state. The tile size is none of them: with the other one, a run goes on where its job passes.

use terms::jobs;
use terms::rng::Rng;
use terms::{Job, Tile, sizes_word};

use super::runs::{Whole, asked};
use super::{JOBS, Kind, kind};
use crate::call::{Ask, Call, Memory};
use crate::damage::runs as damage;
use crate::tally::Tally;

pub const KINDS: &[Kind] = &[
    kind("neighbour of other sizes", 300, 6_000, other_sizes).bringing(JOBS),
    kind("neighbour of equal sizes", 300, 6_000, equal_sizes).bringing(JOBS),
    kind("neighbour of the other tile size", 300, 6_000, other_tile_size).bringing(&OTHER_TILE_SIZE),
];

/// What is counted of a run that is taken up with the other tile size.
const OTHER_TILE_SIZE: [&str; 4] = ["gone on at 256", "gone on at 64", "refused for colours", "refused for counts"];

/// What is counted of a run by the stage that it is left in.
const LEFT_IN: [&str; 8] = [
    "left in stage 0",
    "left in stage 1",
    "left in stage 2",
    "left in stage 3",
    "left in stage 4",
    "left in stage 5",
    "left in stage 6",
    "left in stage 7",
];

/// A run of ours that is left at some moment: in a stage, and some calls later.
fn left(rng: &mut Rng, job: Job, tally: &mut Tally) -> Whole {
    let mut run = Whole::of(rng, job);
    tally.tiles(&run.job.tiles);
    let stage = rng.below(8) as u64;
    run.go_on(rng, 1, tally);
    while run.call.stage() < stage {
        run.go_on(rng, 1, tally);
    }
    (0..rng.below(3)).for_each(|_| run.go_on(rng, 1, tally));
    tally.add(LEFT_IN[run.call.stage() as usize], 1);
    run
}

/// The neighbour's tiles are of either size.
fn equal_sizes(rng: &mut Rng, _: u64, tally: &mut Tally) {
    let job = jobs::job(rng, 60);
    let mut run = left(rng, job, tally);
    let neighbour = jobs::of_sizes(rng, run.job.sizes());
    run.resume_on(neighbour);
    run.finish(rng, tally);
    tally.add("runs that changed jobs", 1);
}

/// The same job with the other tile size: it passes there, or some tile has too many colours or pixels.
fn other_tile_size(rng: &mut Rng, _: u64, tally: &mut Tally) {
    // one of the larger size may have tiles that the smaller takes
    let made = jobs::tile_size(rng);
    let job = Job { size: jobs::tile_size(rng).max(made), ..jobs::of_tile_size(rng, made, 60) };
    let mut run = left(rng, job, tally);
    let size = if run.job.size == 64 { 256 } else { 64 };
    run.resume_on(Job { size, ..run.job.clone() });
    let any = |over: fn(&Tile) -> usize| run.job.tiles.iter().any(|tile| over(tile) > size);
    let (counted, number) = match size {
        _ if any(|tile| tile.counts.len()) => (OTHER_TILE_SIZE[2], 5),
        _ if any(|tile| tile.counts.iter().sum::<u32>() as usize) => (OTHER_TILE_SIZE[3], 6),
        64 => (OTHER_TILE_SIZE[1], 0),
        _ => (OTHER_TILE_SIZE[0], 0),
    };
    tally.add(counted, 1);
    if number == 0 {
        run.finish(rng, tally);
    } else {
        each_answered(&run.call, &damage::asks(rng, &run.call), number, tally);
    }
}

fn other_sizes(rng: &mut Rng, _: u64, tally: &mut Tally) {
    let job = jobs::job(rng, 60);
    let run = left(rng, job, tally);
    for (name, sizes) in neighbours(rng, run.job.sizes()) {
        let call = lent(&run.call.memory, &jobs::of_sizes(rng, sizes));
        tally.add(name, 1);
        taken_up(rng, &call, tally);
        // other sizes may imply other draws made: once more with those, so that only the last word is left to see it
        let mut following = call.clone();
        damage::draws_follow(&mut following);
        if following.memory.record != call.memory.record {
            taken_up(rng, &following, tally);
        }
    }
}

/// S, C, T and n changed, each alone; then S and C exchanged, T and n exchanged.
fn neighbours(rng: &mut Rng, sizes: [usize; 4]) -> Vec<(&'static str, [usize; 4])> {
    let ranges = [("another S", 16), ("another C", 16), ("another T", 1024), ("another n", 16_384)];
    let alone = ranges.into_iter().enumerate().map(|(k, (name, most))| {
        let mut other = sizes;
        other[k] = another(rng, sizes[k], most);
        (name, other)
    });
    let [s, c, t, n] = sizes;
    let exchanged = [("S and C exchanged", [c, s, t, n]), ("T and n exchanged", [s, c, n, t])];
    alone.chain(exchanged.into_iter().filter(|(_, other)| *other != sizes)).collect()
}

/// Another size, most often the next.
fn another(rng: &mut Rng, size: usize, most: usize) -> usize {
    loop {
        let any = rng.among(1, most.min(size + 8));
        let other = rng.pick(&[size - 1, size + 1, any]);
        if other != size && (1..=most).contains(&other) {
            return other;
        }
    }
}

/// A job and a run's memory in the lengths that it asks for, cut or gone through again: every entry is one that is accepted.
fn lent(memory: &Memory, job: &Job) -> Call {
    let mut call = Call::of(job);
    let (n, places) = (call.n, call.memory.palette.len());
    call.memory = Memory {
        order: again(&memory.order, n).into_iter().map(|entry| entry % n as u32).collect(),
        hints: again(&memory.hints, job.tiles.len()),
        palette: again(&memory.palette, places),
        least: again(&memory.least, places),
        record: memory.record.clone(),
    };
    call
}

fn again<T: Copy>(items: &[T], n: usize) -> Vec<T> {
    items.iter().copied().cycle().take(n).collect()
}

/// A start begins anew; every other call is refused for the sizes. What is accepted with the neighbour's own was refused for them alone.
fn taken_up(rng: &mut Rng, call: &Call, tally: &mut Tally) {
    let [start, asks @ ..] = damage::asks(rng, call);
    each_answered(call, &[start], 0, tally);
    each_answered(call, &asks, 20, tally);
    if rng.once_in(4) {
        each_answered(&call.without_numbers(), &asks, 20, tally);
    }
    let mut own = call.clone();
    own.memory.record[6] = sizes_word(call.sizes());
    for ask in &asks {
        let accepted = asked(&own, ask, tally).number == 0;
        tally.add("refused for the sizes alone", u64::from(accepted));
    }
}

fn each_answered(call: &Call, asks: &[Ask], right: u32, tally: &mut Tally) {
    for ask in asks {
        let read = asked(call, ask, tally);
        tally.same(read, right.into(), || format!("{} on the neighbour's job: the number read here", ask.name()));
    }
}
