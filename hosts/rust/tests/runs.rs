//! Whole runs: however they are divided, saved and taken up again, started or threaded, they end the same.

mod common;

use common::{largest, reduced, saved_earlier, Case, Rng, SIZES};
use dunkafeto::{
    assign, console, saved_by_earlier_release, Colour, Job, Moment, Refusal, RestoreError, Stage, Tiles, Trainer,
    LARGE_TILE, SMALL_TILE,
};

/// Every state that a run shows at its stops and its finish, when each step is followed by `between`.
fn states<'a>(
    mut trainer: Trainer<'a>,
    mut allotment: impl FnMut() -> u64,
    between: impl Fn(Trainer<'a>) -> Trainer<'a>,
) -> Vec<dunkafeto::Memory> {
    let mut seen = Vec::new();
    let mut draws = 0;
    loop {
        trainer = between(trainer);
        if trainer.moment() == Moment::Draws {
            let allotted = allotment();
            let before = trainer.draws_made();
            let advanced = trainer.advance(allotted).unwrap();
            assert!(advanced.draws <= allotted);
            assert!(advanced.draws == allotted || advanced.moment != Moment::Draws);
            assert_eq!(trainer.draws_made(), before + advanced.draws);
            draws += advanced.draws;
            continue;
        }
        seen.push(trainer.memory().clone());
        if trainer.moment() == Moment::Finished {
            assert_eq!(draws, trainer.job().draws());
            assert_eq!(trainer.result().unwrap(), trainer.working());
            return seen;
        }
        trainer.hand_in(&reduced(&trainer)).unwrap();
    }
}

#[test]
fn any_division_into_calls_is_one() {
    let mut rng = Rng(1);
    for _ in 0..60 {
        let case = Case::any(&mut rng);
        let whole = states(Trainer::start(case.job()).unwrap(), || u64::MAX, |same| same);
        assert_eq!(whole.len(), 4);
        let parts = states(Trainer::start(case.job()).unwrap(), || [0, 1, 2, 3, 7, 40][rng.below(6)], |same| same);
        assert!(whole == parts);
        let single = states(Trainer::start(case.job()).unwrap(), || 1, |same| same);
        assert!(whole == single);
    }
}

#[test]
fn saved_and_restored_after_every_call() {
    let mut rng = Rng(2);
    for _ in 0..40 {
        let case = Case::any(&mut rng);
        let key = rng.bits();
        let whole = states(Trainer::start(case.job()).unwrap(), || u64::MAX, |same| same);
        let again = |trainer: Trainer| Trainer::restore(case.job(), key, &trainer.save(key)).unwrap();
        let parts = states(Trainer::start(case.job()).unwrap(), || rng.below(9) as u64, again);
        assert!(whole == parts);
    }
}

#[test]
fn a_saved_run_that_was_touched_is_not_restored() {
    let case = Case::of(&mut Rng(5), SMALL_TILE);
    let mut trainer = Trainer::start(case.job()).unwrap();
    trainer.advance(3).unwrap();
    let bytes = trainer.save(1);
    let restored = |bytes: &[u8], key: u64| Trainer::restore(case.job(), key, bytes).err();
    assert_eq!(restored(&bytes, 1), None);
    assert_eq!(restored(&bytes, 2), Some(RestoreError::OtherKey));
    for len in 0..bytes.len() {
        let expected = if len < 8 { RestoreError::NotARun } else { RestoreError::Length };
        assert_eq!(restored(&bytes[..len], 1), Some(expected), "cut to {len}");
    }
    assert_eq!(restored(&[&bytes[..], &[0]].concat(), 1), Some(RestoreError::Length));
    for bit in 0..8 * bytes.len() {
        let mut touched = bytes.clone();
        touched[bit / 8] ^= 1 << (bit % 8);
        let expected = match bit / 8 {
            0..8 => RestoreError::NotARun,
            8..16 => RestoreError::OtherKey,
            _ => RestoreError::Damaged,
        };
        assert_eq!(restored(&touched, 1), Some(expected), "bit {bit}");
    }
    let mut other = Case::of(&mut Rng(6), SMALL_TILE);
    other.samples.pop();
    assert!(Trainer::restore(other.job(), 1, &bytes).is_err());
}

#[test]
fn a_run_is_not_restored_on_a_job_of_other_sizes() {
    let mut case = Case::of(&mut Rng(5), SMALL_TILE);
    (case.subpalettes, case.colours_each) = (2, 3);
    let mut trainer = Trainer::start(case.job()).unwrap();
    trainer.advance(3).unwrap();
    let bytes = trainer.save(1);
    let restored = |job: Job| Trainer::restore(job, 1, &bytes).err();
    let other_sizes = Some(RestoreError::Refused(Refusal::OtherSizes));
    assert_eq!(restored(Job { subpalettes: 3, colours_each: 2, ..case.job() }), other_sizes);
    let mut tiles = case.tiles.clone();
    tiles.push([]);
    let fewer = &case.samples[1..];
    assert_eq!(restored(tiles.job(2, 3, 1.0, fewer, 0)), other_sizes, "as many bytes: a tile more, a sample less");
    assert_eq!(restored(tiles.job(2, 3, 1.0, &case.samples, 0)), Some(RestoreError::Length));
    assert_eq!(restored(case.tiles.job(2, 3, 1.0, fewer, 0)), Some(RestoreError::Length));
    // of a job of equal sizes the key alone knows that it is another
    let equal = Job { weight: 4.0, seed: 9, ..case.job() };
    assert_eq!(restored(equal), None);
    assert_eq!(Trainer::restore(equal, 2, &bytes).err(), Some(RestoreError::OtherKey));
}

#[test]
fn what_an_earlier_release_saved_is_refused_as_such() {
    let case = Case::of(&mut Rng(5), SMALL_TILE);
    let saved = Trainer::start(case.job()).unwrap().save(1);
    let earlier = saved_earlier(&saved);
    assert_eq!(earlier.len() + 8, saved.len());
    assert!(saved_by_earlier_release(&earlier) && !saved_by_earlier_release(&saved));
    for len in 0..=earlier.len() {
        let expected = if len < 8 { RestoreError::NotARun } else { RestoreError::EarlierRelease };
        for key in [1, 2] {
            assert_eq!(Trainer::restore(case.job(), key, &earlier[..len]).err(), Some(expected), "cut to {len}");
        }
    }
    assert!(RestoreError::EarlierRelease.to_string().contains("earlier release, whose record has six words"));
}

#[test]
fn the_examples_numbers_of_draws() {
    for (s, c, n, draws) in [(1, 1, 10, 20), (2, 2, 25, 44), (16, 16, 9, 0), (3, 4, 19, 25)] {
        let mut tiles = Tiles::new(SMALL_TILE);
        tiles.push([([0.25, 0.0, 0.0], 2), ([0.75, 0.5, 0.0], n - 2)]);
        let samples = tiles.samples();
        let mut trainer = Trainer::start(tiles.job(s, c, 2.15, &samples, 0)).unwrap();
        trainer.finish(console::reduced).unwrap();
        assert_eq!((trainer.draws_made(), trainer.job().draws()), (draws, draws));
        assert_eq!(trainer.stage(), Stage::Finished);
    }
}

#[test]
fn below_ten_samples_a_run_begins_at_its_first_stop() {
    let mut tiles = Tiles::new(SMALL_TILE);
    tiles.push([([0.25, 0.0, 0.0], 9)]);
    let samples = tiles.samples();
    let trainer = Trainer::start(tiles.job(2, 3, 1.0, &samples, 0)).unwrap();
    assert_eq!(trainer.stage(), Stage::ReduceTrained);
    assert_eq!(trainer.working(), [[0.25, 0.0, 0.0]; 6]);
}

#[test]
fn no_hint_changes_a_result() {
    let mut rng = Rng(3);
    for _ in 0..30 {
        let case = Case::any(&mut rng);
        let colours = Trainer::start(case.job()).unwrap().finish(console::reduced).unwrap();
        let hints = (0..case.tiles.len()).map(|_| rng.bits() as u32 % 20).collect();
        let hinted = Trainer::start_from(case.job(), hints).unwrap().finish(console::reduced).unwrap();
        assert_eq!(colours, hinted);
    }
}

/// The tile's distance, summed as the scope says.
fn distance(sub: &[Colour], colours: &[Colour], counts: &[u32], weight: f32) -> f32 {
    let squared = |p: &Colour, q: &Colour| {
        let [l, a, b] = [0, 1, 2].map(|i| p[i] - q[i]);
        l * l + weight * (a * a + b * b)
    };
    let nearest = |q: &Colour| sub.iter().map(|p| squared(q, p)).fold(f32::INFINITY, f32::min);
    colours.iter().zip(counts).fold(0.0, |sum, (q, &count)| sum + nearest(q) * count as f32)
}

#[test]
fn assign_gives_the_first_of_least_distance() {
    let mut rng = Rng(4);
    let mut tied = 0;
    for _ in 0..300 {
        let case = Case::any(&mut rng);
        let mut palette: Vec<Colour> = (0..case.job().palette_len()).map(|_| rng.colour()).collect();
        if rng.below(2) == 0 {
            let (from, to) = (rng.below(case.subpalettes), rng.below(case.subpalettes));
            let c = case.colours_each;
            palette.copy_within(from * c..(from + 1) * c, to * c);
        }
        let lent: Vec<u32> = (0..case.tiles.len()).map(|_| rng.below(9) as u32).collect();
        let mut hints = lent.clone();
        let subpalettes = assign(&case.job(), &palette, &mut hints).unwrap();
        for (i, (colours, counts)) in case.tiles.iter().enumerate() {
            if colours.is_empty() {
                assert_eq!((subpalettes[i], hints[i]), (0, lent[i]));
                continue;
            }
            let each = palette.chunks(case.colours_each).map(|sub| distance(sub, colours, counts, case.weight));
            let each: Vec<f32> = each.collect();
            let least = each.iter().copied().fold(f32::INFINITY, f32::min);
            tied += usize::from(each.iter().filter(|&&one| one == least).count() > 1);
            let first = each.iter().position(|&one| one == least).unwrap() as u32;
            assert_eq!((subpalettes[i], hints[i]), (first, first));
        }
    }
    assert!(tied > 100, "{tied} ties");
}

#[test]
fn runs_on_threads_share_nothing() {
    fn sent<T: Send + Sync>(_: &T) {}
    let case = Case::of(&mut Rng(8), LARGE_TILE);
    let alone = Trainer::start(case.job()).unwrap().finish(console::reduced).unwrap();
    std::thread::scope(|scope| {
        for _ in 0..4 {
            scope.spawn(|| {
                let mut trainer = Trainer::start(case.job()).unwrap();
                sent(&trainer);
                while trainer.moment() == Moment::Draws {
                    trainer.advance(1).unwrap();
                }
                assert_eq!(trainer.finish(console::reduced).unwrap(), alone);
            });
        }
    });
}

/// The record does not hold the tile size: with the other one a run goes on, and is the same run.
#[test]
fn either_tile_size_in_turn_is_one_run() {
    let mut rng = Rng(7);
    for _ in 0..10 {
        let case = Case::of(&mut rng, SMALL_TILE);
        let whole = states(Trainer::start(case.job()).unwrap(), || u64::MAX, |same| same);
        let other = |trainer: Trainer<'_>| {
            let tile_size = SMALL_TILE + LARGE_TILE - trainer.job().tile_size;
            Trainer::resume(Job { tile_size, ..case.job() }, trainer.into_memory()).unwrap()
        };
        let parts = states(Trainer::start(case.job()).unwrap(), || 7, other);
        assert!(whole == parts);
    }
}

#[test]
fn the_largest_jobs() {
    SIZES.into_iter().for_each(whole_largest);
}

/// On a thread whose stack is small.
fn whole_largest(size: usize) {
    const STACK: usize = 64 * 1024;
    let case = largest(size);
    let run = || {
        let mut trainer = Trainer::start(case.job()).unwrap();
        let mut calls = 0;
        while trainer.moment() != Moment::Finished {
            if trainer.moment() == Moment::Draws {
                trainer.advance(20_000).unwrap();
            } else {
                trainer.hand_in(&reduced(&trainer)).unwrap();
            }
            calls += 1;
        }
        assert_eq!(trainer.save(0).len(), 75_856);
        (trainer.draws_made(), calls)
    };
    std::thread::scope(|scope| {
        let thread = std::thread::Builder::new().stack_size(STACK).spawn_scoped(scope, run).unwrap();
        assert_eq!(thread.join().unwrap(), (50 * 1_638, 8));
    });
}
