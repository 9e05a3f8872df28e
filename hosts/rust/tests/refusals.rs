//! Each answer number through the safe calls, at its edge where it has one, with the colour that it names, and that a refusal
//! leaves everything as it was.

mod common;

use std::fmt::Debug;

use common::{above, reduced, spoiled, to_stop, Case, Rng, SIZES};
use dunkafeto::{
    assign, Colour, Job, Memory, Moment, Refusal, Sample, Sheet, Tile, Tiles, Trainer, LARGE_TILE, SMALL_TILE,
};

const GREY: [f32; 3] = [0.5, 0.0, 0.0];
/// No tile has so many pixels.
const WRONG_SIZES: [usize; 9] = [0, 63, 65, 128, 255, 257, 512, 1 << 32 | 64, usize::MAX];

fn tiles(size: usize, each: &[&[u32]]) -> Tiles {
    let mut tiles = Tiles::new(size);
    each.iter().for_each(|counts| tiles.push(counts.iter().map(|&count| (GREY, count))));
    tiles
}

/// The call was refused with this number, at this index, and names this colour.
#[track_caller]
fn names<T: Debug>(found: Result<T, Refusal>, number: u8, index: usize, words: &str) {
    let refusal = found.unwrap_err();
    assert_eq!((refusal.number(), refusal.index()), (number, index));
    assert_eq!(refusal.entry().map(|entry| entry.to_string()).as_deref(), Some(words));
}

fn started(job: Job) -> Result<(), Refusal> {
    Trainer::start(job).map(drop)
}

/// A job that is accepted, changed by `change`.
fn start_of<'a>(change: impl FnOnce(&mut Job<'a>)) -> Result<(), Refusal> {
    let mut job = Job {
        tile_size: SMALL_TILE,
        subpalettes: 2,
        colours_each: 2,
        weight: 1.0,
        tiles: &[Tile { first: 0, colours: 2 }],
        colours: &[GREY, [1.0, 0.0, 0.0]],
        counts: &[10, 54],
        samples: &[Sample { tile: 0, place: 1 }; 20],
        seed: 7,
    };
    change(&mut job);
    started(job)
}

#[test]
fn an_accepted_job_starts() {
    assert_eq!(start_of(|_| {}), Ok(()));
}

#[test]
fn number_1_no_samples() {
    assert_eq!(start_of(|job| job.samples = &[]), Err(Refusal::NoSamples));
}

#[test]
fn number_2_sizes() {
    for wrong in [0, 17, usize::MAX] {
        assert_eq!(start_of(|job| job.subpalettes = wrong), Err(Refusal::Sizes));
        assert_eq!(start_of(|job| job.colours_each = wrong), Err(Refusal::Sizes));
    }
    assert_eq!(start_of(|job| job.tiles = &[]), Err(Refusal::Sizes));
    let full: Vec<&[u32]> = vec![&[16]; 1_024];
    let most = tiles(SMALL_TILE, &full);
    let samples = most.samples();
    assert_eq!(samples.len(), 16_384);
    assert_eq!(started(most.job(1, 1, 1.0, &samples, 0)), Ok(()));
    let more = tiles(SMALL_TILE, &[&full[..], &[&[]]].concat());
    assert_eq!(started(more.job(1, 1, 1.0, &samples, 0)), Err(Refusal::Sizes));
    assert_eq!(assign(&more.job(1, 1, 1.0, &[], 0), &[GREY], &mut [0; 1_025]), Err(Refusal::Sizes));
    let samples = [&samples[..], &samples[..1]].concat();
    assert_eq!(started(most.job(1, 1, 1.0, &samples, 0)), Err(Refusal::Sizes));
}

#[test]
fn number_2_tile_sizes() {
    for wrong in WRONG_SIZES {
        assert_eq!(start_of(|job| job.tile_size = wrong), Err(Refusal::Sizes), "{wrong}");
        let others = |job: &mut Job| (job.tile_size, job.weight, job.samples, job.counts) = (wrong, 0.0, &[], &[]);
        assert_eq!(start_of(others), Err(Refusal::Sizes), "{wrong}, and 1, 3 and 4");
        let (tiles, mut hints) = (tiles(wrong, &[&[1]]), [9]);
        assert_eq!(assign(&tiles.job(1, 1, 1.0, &[], 0), &[GREY], &mut hints), Err(Refusal::Sizes), "{wrong}");
        assert_eq!(hints, [9]);
        let changed = |case: &mut Case, _: &mut Memory| case.tiles = spoiled_tiles(wrong, &[]);
        assert_eq!(resumed_on(changed), Err(Refusal::Sizes), "{wrong}");
    }
    assert_eq!(start_of(|job| job.tile_size = LARGE_TILE), Ok(()));
}

#[test]
fn number_3_lengths() {
    assert_eq!(start_of(|job| job.counts = &[64]), Err(Refusal::Lengths));
    assert_eq!(start_of(|job| job.colours = &job.colours[1..]), Err(Refusal::Lengths));
    let case = Case::of(&mut Rng(3), SMALL_TILE);
    assert_eq!(Trainer::start_from(case.job(), vec![0; case.tiles.len() + 1]).err(), Some(Refusal::Lengths));
    let palette = vec![GREY; case.job().palette_len()];
    let mut hints = vec![0; case.tiles.len()];
    assert_eq!(assign(&case.job(), &palette[1..], &mut hints), Err(Refusal::Lengths));
    assert_eq!(assign(&case.job(), &palette, &mut hints[1..]), Err(Refusal::Lengths));
    let mut trainer = Trainer::start(case.job()).unwrap();
    to_stop(&mut trainer);
    assert_eq!(trainer.hand_in(&palette[1..]), Err(Refusal::Lengths));
}

#[test]
fn number_4_weight() {
    for wrong in [0.0, -0.0, -1.0, above(16.0), f32::INFINITY, f32::NAN] {
        assert_eq!(start_of(|job| job.weight = wrong), Err(Refusal::Weight), "{wrong}");
    }
    for right in [f32::from_bits(1), 2.15, 16.0] {
        assert_eq!(start_of(|job| job.weight = right), Ok(()));
    }
}

#[test]
fn number_5_tiles() {
    let wrong = [Tile { first: 1, colours: 1 }, Tile { first: 0, colours: 1 }, Tile { first: 0, colours: u32::MAX }];
    for tile in wrong {
        let table = [tile];
        assert_eq!(start_of(|job| job.tiles = &table), Err(Refusal::Tiles), "{tile:?}");
    }
    assert_eq!(all_calls(&tiles(SMALL_TILE, &[&[1; 64]])), Ok(()));
    assert_eq!(all_calls(&tiles(SMALL_TILE, &[&[1; 65]])), Err(Refusal::Tiles));
    assert_eq!(all_calls(&tiles(LARGE_TILE, &[&[1; 65]])), Ok(()));
    assert_eq!(all_calls(&tiles(LARGE_TILE, &[&[1; 256]])), Ok(()));
    assert_eq!(all_calls(&tiles(LARGE_TILE, &[&[1; 257]])), Err(Refusal::Tiles));
}

/// What all calls on a job of these tiles say, which is the same: start, the resuming of what another job left, and assign.
fn all_calls(tiles: &Tiles) -> Result<(), Refusal> {
    let samples = [Sample::default(); 20];
    let job = tiles.job(1, 1, 1.0, &samples, 0);
    let other = self::tiles(SMALL_TILE, &[&[1]]);
    let mut hints = [9];
    let mut left = Trainer::start(other.job(1, 1, 1.0, &samples, 0)).unwrap();
    left.advance(3).unwrap();
    let said = started(job);
    assert_eq!(Trainer::resume(job, left.into_memory()).map(drop), said);
    assert_eq!(assign(&job, &[GREY], &mut hints).map(drop), said);
    assert_eq!(hints, [if said.is_ok() { 0 } else { 9 }]);
    said
}

#[test]
fn number_6_counts() {
    assert_eq!(start_of(|job| job.counts = &[0, 64]), Err(Refusal::Counts));
    assert_eq!(start_of(|job| job.counts = &[11, 54]), Err(Refusal::Counts));
    assert_eq!(start_of(|job| job.counts = &[u32::MAX, 2]), Err(Refusal::Counts));
    assert_eq!(all_calls(&tiles(SMALL_TILE, &[&[64]])), Ok(()));
    assert_eq!(all_calls(&tiles(SMALL_TILE, &[&[1, 64]])), Err(Refusal::Counts));
    assert_eq!(all_calls(&tiles(LARGE_TILE, &[&[1, 64]])), Ok(()));
    assert_eq!(all_calls(&tiles(LARGE_TILE, &[&[256]])), Ok(()));
    assert_eq!(all_calls(&tiles(LARGE_TILE, &[&[257]])), Err(Refusal::Counts));
    assert_eq!(all_calls(&tiles(LARGE_TILE, &[&[100, 157]])), Err(Refusal::Counts));
}

#[test]
fn number_7_at_its_edge() {
    for wrong in [above(2.0), -3.0, f32::INFINITY, f32::NAN] {
        let colours = [GREY, [0.5, wrong, 0.0]];
        names(start_of(|job| job.colours = &colours), 7, 1, "tile 0, colour 1");
        let (tiles, palette) = (tiles(SMALL_TILE, &[&[1]]), &colours[1..]);
        let assigned = assign(&tiles.job(1, 1, 1.0, &[], 0), palette, &mut [0]);
        names(assigned, 7, 0, "palette colour 0 (subpalette 0, colour 0)");
    }
    assert_eq!(start_of(|job| job.colours = &[[2.0, -2.0, 2.0], GREY]), Ok(()));
}

/// Tiles of two colours, none, one and three, of which some are spoiled.
fn spoiled_tiles(size: usize, bad: &[usize]) -> Tiles {
    let mut colours = vec![GREY; 6];
    spoil(&mut colours, bad);
    let mut tiles = Tiles::new(size);
    for places in [0..2, 2..2, 2..3, 3..6] {
        tiles.push(colours[places].iter().map(|&colour| (colour, 20)));
    }
    tiles
}

/// Such tiles, for two subpalettes of three colours.
fn spoiled_case(bad: &[usize]) -> Case {
    let tiles = spoiled_tiles(SMALL_TILE, bad);
    let samples = tiles.samples();
    Case { subpalettes: 2, colours_each: 3, weight: 1.0, tiles, samples, seed: 3 }
}

fn spoil(colours: &mut [Colour], bad: &[usize]) {
    bad.iter().for_each(|&at| colours[at][at % 3] = f32::NAN);
}

#[test]
fn number_7_names_the_first_tile_colour_of_a_run_s_job() {
    let good = spoiled_case(&[]);
    let mut trainer = Trainer::start(good.job()).unwrap();
    to_stop(&mut trainer);
    for (bad, index, words) in [
        (&[0][..], 0, "tile 0, colour 0"),
        (&[1], 1, "tile 0, colour 1"),
        (&[2], 2, "tile 2, colour 0"),
        (&[5], 5, "tile 3, colour 2"),
        (&[5, 4], 4, "tile 3, colour 1"),
        (&[3, 2], 2, "tile 2, colour 0"),
    ] {
        let case = spoiled_case(bad);
        names(started(case.job()), 7, index, words);
        names(Trainer::resume(case.job(), trainer.memory().clone()), 7, index, words);
    }
}

#[test]
fn number_7_names_the_first_colour_of_palette_and_tiles() {
    for (bad, bad_tiles, index, words) in [
        (&[0][..], &[][..], 0, "palette colour 0 (subpalette 0, colour 0)"),
        (&[5], &[], 5, "palette colour 5 (subpalette 1, colour 2)"),
        (&[4, 3], &[], 3, "palette colour 3 (subpalette 1, colour 0)"),
        (&[5], &[0], 5, "palette colour 5 (subpalette 1, colour 2)"),
        (&[], &[0], 6, "tile 0, colour 0"),
        (&[], &[2], 8, "tile 2, colour 0"),
        (&[], &[5, 4], 10, "tile 3, colour 1"),
    ] {
        let Case { subpalettes, colours_each, weight, tiles, .. } = spoiled_case(bad_tiles);
        let mut palette = vec![GREY; 6];
        spoil(&mut palette, bad);
        let mut hints = [9; 4];
        names(assign(&tiles.job(2, 3, weight, &[], 0), &palette, &mut hints), 7, index, words);
        assert_eq!(hints, [9; 4]);
        names(Sheet { subpalettes, colours_each, weight, palette, tiles }.write(), 7, index, words);
        let all: Vec<usize> = bad.iter().copied().chain(bad_tiles.iter().map(|at| 6 + at)).collect();
        SIZES.into_iter().for_each(|size| names(Sheet::read(&spoiled(&good_sheet(size), &all)), 7, index, words));
    }
}

fn good_sheet(size: usize) -> Sheet {
    let palette = vec![GREY; 6];
    Sheet { subpalettes: 2, colours_each: 3, weight: 1.0, palette, tiles: spoiled_tiles(size, &[]) }
}

#[test]
fn number_17_names_the_first_colour_handed_in() {
    let case = spoiled_case(&[]);
    let mut trainer = Trainer::start(case.job()).unwrap();
    let before = trainer.memory().clone();
    assert_eq!(trainer.hand_in(&[[f32::NAN; 3]; 6]), Err(Refusal::Moment));
    assert_eq!(trainer.memory(), &before);
    to_stop(&mut trainer);
    let before = trainer.memory().clone();
    for (bad, index, words) in [
        (&[0][..], 0, "handed-in colour 0 (subpalette 0, colour 0)"),
        (&[5], 5, "handed-in colour 5 (subpalette 1, colour 2)"),
        (&[4, 3], 3, "handed-in colour 3 (subpalette 1, colour 0)"),
    ] {
        let mut colours = reduced(&trainer);
        spoil(&mut colours, bad);
        names(trainer.hand_in(&colours), 17, index, words);
        assert_eq!(trainer.memory(), &before);
    }
    let mut colours = reduced(&trainer);
    colours[1][2] = -above(2.0);
    names(trainer.hand_in(&colours), 17, 1, "handed-in colour 1 (subpalette 0, colour 1)");
    colours[1][2] = -2.0;
    assert!(trainer.hand_in(&colours).is_ok());
}

#[test]
fn number_8_samples() {
    for sample in [Sample { tile: 1, place: 0 }, Sample { tile: 0, place: 2 }, Sample { tile: u32::MAX, place: 0 }] {
        let samples = [sample];
        assert_eq!(start_of(|job| job.samples = &samples), Err(Refusal::Samples), "{sample:?}");
    }
}

/// What resuming says of the memory of a run in the middle of stage 2, changed by `change`.
fn resumed(change: impl FnOnce(&mut Memory)) -> Result<(), Refusal> {
    let mut case = Case::of(&mut Rng(9), SMALL_TILE);
    case.samples = vec![case.samples[0]; 40];
    let job = case.job();
    let mut trainer = Trainer::start(job).unwrap();
    trainer.advance(4 * (job.subpalettes + job.colours_each) as u64).unwrap();
    let mut memory = trainer.into_memory();
    assert_eq!(memory.record[1], 2);
    change(&mut memory);
    Trainer::resume(job, memory).map(drop)
}

#[test]
fn a_run_s_own_memory_resumes() {
    assert_eq!(resumed(|_| {}), Ok(()));
    assert_eq!(resumed(|memory| memory.hints.fill(u32::MAX)), Ok(()));
    assert_eq!(resumed(|memory| memory.record[0] ^= 1), Ok(()));
}

#[test]
fn a_stranger_s_memory_is_checked_by_the_library() {
    assert_eq!(resumed(|memory| memory.order[39] = 40), Err(Refusal::Order));
    assert_eq!(resumed(|memory| memory.order[0] = u32::MAX), Err(Refusal::Order));
    assert_eq!(resumed(|memory| memory.palette[0][0] = 4.0), Ok(()));
    let working = "working colour 0 (subpalette 0, colour 0)";
    names(resumed(|memory| memory.palette[0][0] = above(4.0)), 16, 0, working);
    assert_eq!(resumed(|memory| memory.order.truncate(39)), Err(Refusal::Lengths));
    assert_eq!(resumed(|memory| memory.hints.truncate(1)), Err(Refusal::Lengths));
    assert_eq!(resumed(|memory| memory.palette.truncate(1)), Err(Refusal::Lengths));
    assert_eq!(resumed(|memory| memory.least.truncate(1)), Err(Refusal::Lengths));
}

/// What a run of two subpalettes of three colours, in stage 0 or 2, is told where colours of its memory are spoiled.
fn spoiled_run(stage: u64, bad: &[usize], kept: &[usize], change: impl FnOnce(&mut Memory)) -> Result<(), Refusal> {
    let case = spoiled_case(&[]);
    let job = case.job();
    let mut trainer = Trainer::start(job).unwrap();
    while trainer.memory().record[1] != stage {
        trainer.advance(1).unwrap();
    }
    let mut memory = trainer.into_memory();
    spoil(&mut memory.palette, bad);
    spoil(&mut memory.least, kept);
    change(&mut memory);
    Trainer::resume(job, memory).map(drop)
}

#[test]
fn number_16_names_the_first_colour_of_both_palettes() {
    for (bad, kept, index, words) in [
        (&[0][..], &[][..], 0, "working colour 0 (subpalette 0, colour 0)"),
        (&[5], &[0], 5, "working colour 5 (subpalette 1, colour 2)"),
        (&[4, 3], &[3], 3, "working colour 3 (subpalette 1, colour 0)"),
        (&[], &[0], 6, "kept colour 0 (subpalette 0, colour 0)"),
        (&[], &[5, 4], 10, "kept colour 4 (subpalette 1, colour 1)"),
    ] {
        names(spoiled_run(2, bad, kept, |_| {}), 16, index, words);
        names(spoiled_run(2, bad, kept, |memory| memory.order[0] = u32::MAX), 16, index, words);
        assert_eq!(spoiled_run(2, bad, kept, |memory| memory.record[4] += 1), Err(Refusal::Record));
        let expected = if bad.is_empty() { Ok(()) } else { spoiled_run(2, bad, kept, |_| {}) };
        assert_eq!(spoiled_run(0, bad, kept, |_| {}), expected, "the second palette is in use in stage 2 alone");
    }
}

#[test]
fn number_20_every_bit_of_the_record_s_sizes() {
    for bit in 0..64 {
        for stage in [0, 2] {
            let changed = spoiled_run(stage, &[], &[], |memory| memory.record[6] ^= 1 << bit);
            assert_eq!(changed, Err(Refusal::OtherSizes), "stage {stage}, bit {bit}");
        }
    }
}

/// What resuming says, after each call of a run of two subpalettes of three colours, on a job changed by `change`, which fits
/// the memory to it.
fn resumed_on(change: impl Fn(&mut Case, &mut Memory)) -> Result<(), Refusal> {
    let case = spoiled_case(&[]);
    let mut trainer = Trainer::start(case.job()).unwrap();
    let mut answers = Vec::new();
    loop {
        let (mut other, mut memory) = (spoiled_case(&[]), trainer.memory().clone());
        assert_eq!(memory.record[6], 2 << 48 | 3 << 32 | 4 << 16 | 120, "no call changes it");
        change(&mut other, &mut memory);
        answers.push(Trainer::resume(other.job(), memory).map(drop));
        match trainer.moment() {
            Moment::Draws => drop(trainer.advance(40).unwrap()),
            Moment::Stop => drop(trainer.hand_in(&reduced(&trainer)).unwrap()),
            Moment::Finished => break,
        }
    }
    assert!(answers.len() > 8 && answers.iter().all(|answer| *answer == answers[0]), "{answers:?}");
    answers[0]
}

fn palettes_of(memory: &mut Memory, colours: usize) {
    memory.palette.resize(colours, GREY);
    memory.least.resize(colours, GREY);
}

fn another_tile(case: &mut Case, memory: &mut Memory) {
    case.tiles.push([]);
    memory.hints.push(0);
}

fn another_sample(case: &mut Case, memory: &mut Memory) {
    case.samples.push(case.samples[0]);
    memory.order.push(0);
}

#[test]
fn number_20_a_job_of_other_sizes() {
    let other = Err(Refusal::OtherSizes);
    assert_eq!(resumed_on(|case, _| (case.subpalettes, case.colours_each) = (3, 2)), other);
    assert_eq!(resumed_on(another_tile), other);
    assert_eq!(resumed_on(another_sample), other);
    for (subpalettes, colours_each) in [(1, 3), (3, 3), (2, 2), (2, 4), (1, 6), (6, 1)] {
        let sizes = |case: &mut Case, memory: &mut Memory| {
            (case.subpalettes, case.colours_each) = (subpalettes, colours_each);
            palettes_of(memory, subpalettes * colours_each);
        };
        assert_eq!(resumed_on(sizes), other, "{subpalettes} of {colours_each}");
    }
}

/// S, C, T and n are all that the record knows of its job.
#[test]
fn a_job_of_equal_sizes_is_taken_for_the_same() {
    let equal = |case: &mut Case, _: &mut Memory| {
        let mut tiles = Tiles::new(SMALL_TILE);
        [3, 2, 0, 1].iter().for_each(|&colours| tiles.push(vec![([0.25, 0.5, -0.5], 7); colours]));
        let samples = [&tiles.samples()[..], &tiles.samples(), &tiles.samples()].concat()[..120].to_vec();
        *case = Case { tiles, samples, weight: 2.0, seed: 4, ..spoiled_case(&[]) };
    };
    assert_eq!(resumed_on(equal), Ok(()));
    let other_size = |case: &mut Case, _: &mut Memory| case.tiles = spoiled_tiles(LARGE_TILE, &[]);
    assert_eq!(resumed_on(other_size), Ok(()), "nor does it know the tile size");
}

#[test]
fn number_20_comes_after_8_and_before_10() {
    let other = Err(Refusal::OtherSizes);
    assert_eq!(spoiled_run(2, &[0], &[0], |memory| memory.record[6] += 1), other);
    assert_eq!(spoiled_run(2, &[], &[], |memory| (memory.record[1], memory.record[6]) = (8, 0)), other);
    assert_eq!(spoiled_run(2, &[], &[], |memory| (memory.order[0], memory.record[6]) = (u32::MAX, 0)), other);
    let with_sample = |case: &mut Case, memory: &mut Memory| {
        another_tile(case, memory);
        case.samples[0].tile = 9;
    };
    assert_eq!(resumed_on(with_sample), Err(Refusal::Samples));
    assert_eq!(resumed_on(|case, memory| (case.weight, memory.record[6]) = (0.0, 0)), Err(Refusal::Weight));
    let with_length = |_: &mut Case, memory: &mut Memory| {
        memory.record[6] = 0;
        memory.hints.pop();
    };
    assert_eq!(resumed_on(with_length), Err(Refusal::Lengths));
}

#[test]
fn number_10_every_rule_of_the_record() {
    let word = |at: usize, value: u64| resumed(|memory| memory.record[at] = value);
    for (at, value) in [(1, 8), (1, u64::MAX), (1, 3), (2, 10), (2, u64::MAX), (3, 0), (3, 5), (3, u64::MAX)] {
        assert_eq!(word(at, value), Err(Refusal::Record), "word {at} {value}");
    }
    assert_eq!(resumed(|memory| memory.record[4] += 1), Err(Refusal::Record));
    assert_eq!(resumed(|memory| memory.record[4] -= 1), Err(Refusal::Record));
    assert_eq!(word(5, f32::INFINITY.to_bits().into()), Err(Refusal::Record));
    assert_eq!(word(5, 1 << 31), Err(Refusal::Record));
    assert_eq!(word(5, 1 << 32), Err(Refusal::Record));
    assert_eq!(word(5, f32::MAX.to_bits().into()), Ok(()));
}

#[test]
fn number_11_the_moment() {
    let mut case = Case::of(&mut Rng(11), SMALL_TILE);
    case.samples = vec![case.samples[0]; 30];
    let mut trainer = Trainer::start(case.job()).unwrap();
    let colours = reduced(&trainer);
    for _ in 0..3 {
        assert_eq!(trainer.result(), Err(Refusal::Moment));
        if trainer.advance(0).is_ok() {
            assert_eq!(trainer.hand_in(&colours), Err(Refusal::Moment));
        }
        to_stop(&mut trainer);
        let before = trainer.memory().clone();
        assert_eq!(trainer.advance(1), Err(Refusal::Moment));
        assert_eq!(trainer.memory(), &before);
        trainer.hand_in(&colours).unwrap();
    }
    assert_eq!(trainer.advance(0), Err(Refusal::Moment));
    assert_eq!(trainer.hand_in(&colours), Err(Refusal::Moment));
    assert_eq!(trainer.result(), Ok(colours));
}

#[test]
fn numbers_12_and_13_sheets() {
    SIZES.into_iter().for_each(sheet_ends);
}

fn sheet_ends(size: usize) {
    let tiles = tiles(size, &[&[4]]);
    let sheet = Sheet { subpalettes: 1, colours_each: 1, weight: 1.0, palette: vec![GREY], tiles };
    let bytes = sheet.write().unwrap();
    let read = |change: &dyn Fn(&mut Vec<u8>)| {
        let mut bytes = bytes.clone();
        change(&mut bytes);
        Sheet::read(&bytes).map(drop)
    };
    assert_eq!(read(&|bytes| bytes[0] ^= 1), Err(Refusal::SheetOpening));
    for edition in (0..16).filter(|edition| !matches!(edition, 1 | 2)) {
        assert_eq!(read(&|bytes| bytes[4] = edition << 4 | bytes[4] & 15), Err(Refusal::SheetOpening), "{edition}");
    }
    assert_eq!(read(&|bytes| bytes.truncate(bytes.len() - 1)), Err(Refusal::SheetBytes));
    assert_eq!(read(&|bytes| bytes.push(0)), Err(Refusal::SheetBytes));
    assert_eq!(read(&|bytes| *bytes.last_mut().unwrap() |= 1), Err(Refusal::SheetBytes));
    assert_eq!(read(&|bytes| bytes.resize(65_537, 0)), Err(Refusal::SheetBytes));
    (0..10).for_each(|len| assert_eq!(read(&|bytes| bytes.truncate(len)), Err(Refusal::SheetBytes), "cut to {len}"));
}

/// The first tile's number of colours stands behind 86 + 96 bits, and its first count behind that.
#[test]
fn numbers_5_and_6_sheets() {
    let read = |size: usize, colours: usize, ones: std::ops::Range<usize>| {
        let tiles = tiles(size, &[&vec![1; colours]]);
        let sheet = Sheet { subpalettes: 1, colours_each: 1, weight: 1.0, palette: vec![GREY], tiles };
        let mut bytes = sheet.write().unwrap();
        ones.for_each(|bit| bytes[bit / 8] |= 0x80 >> (bit % 8));
        Sheet::read(&bytes).map(drop)
    };
    assert_eq!((read(SMALL_TILE, 64, 0..0), read(LARGE_TILE, 256, 0..0)), (Ok(()), Ok(())));
    assert_eq!(
        (read(SMALL_TILE, 64, 188..189), read(LARGE_TILE, 256, 190..191)),
        (Err(Refusal::Tiles), Err(Refusal::Tiles))
    );
    assert_eq!(
        (read(SMALL_TILE, 2, 189..195), read(LARGE_TILE, 2, 191..199)),
        (Err(Refusal::Counts), Err(Refusal::Counts))
    );
    assert_eq!((read(SMALL_TILE, 1, 189..195), read(LARGE_TILE, 1, 191..199)), (Ok(()), Ok(())));
}
