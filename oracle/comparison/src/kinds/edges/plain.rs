//! Edges of a job without samples, through single fit, `best_two`, assign and the sheet's writer; and those of grouping.

use terms::Tile;
use terms::rng::Rng;

use super::{around, at, colours_in_all, component, counted, listed, sums, tiles, weights};
use crate::kinds::calls::Call;
use crate::kinds::entries::PLAIN;
use crate::kinds::groups;
use crate::table::Refusal;
use crate::tally::Tally;

pub fn compare(rng: &mut Rng, size: usize, tally: &mut Tally) {
    of_tiles(rng, size, tally);
    of_colours(rng, size, tally);
    of_sizes(rng, size, tally);
    of_grouping(rng, size, tally);
}

/// Of two subpalettes of two colours.
pub fn good(rng: &mut Rng, size: usize, tiles: &[Tile]) -> Call {
    with_palette(rng, size, [2, 2], tiles)
}

fn with_palette(rng: &mut Rng, size: usize, [s, c]: [usize; 2], tiles: &[Tile]) -> Call {
    Call::new(rng, size, &vec![vec![[0.25, -0.5, 0.5]; c]; s], tiles, 2.15)
}

/// Single fit, `best_two`, assign and the writer, and what they get.
pub fn each(tally: &mut Tally, what: &str, call: &Call, right: [impl Into<Refusal>; 4]) {
    for (plain, right) in PLAIN.iter().zip(right) {
        let compared = (plain.compare)(call, tally);
        listed(tally, what, plain.name, compared, right);
    }
}

fn of_tiles(rng: &mut Rng, size: usize, tally: &mut Tally) {
    let mut whole = |what: &str, tiles: Vec<Tile>, numbers: [u32; 4]| {
        each(tally, what, &good(rng, size, &tiles), numbers);
    };
    for (t, assign) in [(1, 0), (2, 0), (1024, 0), (1025, 2)] {
        let alone = if t == 1 { 0 } else { 2 };
        whole(&format!("T {t}"), tiles(t, 1), [alone, alone, assign, assign]);
    }
    // as many tile colours as a job may have make a sheet that is too long
    whole("16,384 tile colours", colours_in_all(size, 16_384), [2, 2, 0, 13]);
    whole("16,385 tile colours", colours_in_all(size, 16_385), [2, 2, 5, 5]);
    whole("a tile of as many colours as can be", tiles(1, size), [0; 4]);
    whole("a tile of one colour more", tiles(1, size + 1), [5; 4]);
    whole("an empty tile", tiles(1, 0), [15, 0, 0, 0]);
    for (counts, number) in sums(size).into_iter().chain([(vec![0, 1], 6), (vec![u32::MAX, 1], 6)]) {
        whole(&format!("counts {counts:?}"), counted(&counts), [number; 4]);
    }
}

fn of_colours(rng: &mut Rng, size: usize, tally: &mut Tally) {
    for (weight, number) in weights() {
        let mut call = good(rng, size, &tiles(1, 2));
        call.given.weight = weight;
        each(tally, &format!("weight {weight:?}"), &call, [number; 4]);
    }
    for (x, number) in around(2.0, 7) {
        // tile colours are counted on from the four of the palette
        each(tally, &format!("component {x:?}"), &good(rng, size, &component(x)), [at(number, 4); 4]);
        let mut call = good(rng, size, &tiles(1, 2));
        call.palette[11] = x;
        each(tally, &format!("palette component {x:?}"), &call, [at(number, 3); 4]);
    }
}

fn of_sizes(rng: &mut Rng, size: usize, tally: &mut Tally) {
    for more in [false, true] {
        let mut call = good(rng, size, &tiles(1, 2));
        call.palette.resize(if more { 13 } else { 11 }, 0.5);
        each(tally, "length of the palette", &call, [3; 4]);
    }
    for (many, number) in [(1, 0), (16, 0), (17, 2)] {
        each(tally, &format!("S {many}"), &with_palette(rng, size, [many, 2], &tiles(1, 2)), [number; 4]);
        each(tally, &format!("C {many}"), &with_palette(rng, size, [2, many], &tiles(1, 2)), [number; 4]);
    }
    for many in [0, 1 << 32, 1 << 63, usize::MAX] {
        let call = good(rng, size, &tiles(1, 2));
        let wrong = |edit: fn(&mut Call, usize)| {
            let mut wrong = call.clone();
            edit(&mut wrong, many);
            wrong
        };
        each(tally, &format!("S {many}"), &wrong(|call, many| call.given.s = many), [2; 4]);
        each(tally, &format!("C {many}"), &wrong(|call, many| call.given.c = many), [2; 4]);
        each(tally, &format!("T {many}"), &wrong(|call, many| call.given.t = many), [2; 4]);
    }
}

fn of_grouping(rng: &mut Rng, size: usize, tally: &mut Tally) {
    for (pixels, number) in [(0, 0), (size - 1, 0), (size, 0), (size + 1, 2)] {
        let call = groups::Call::of(rng, size, pixels);
        let compared = groups::grouped(&call, tally);
        listed(tally, &format!("{pixels} pixels"), "grouping", compared, number);
    }
    for (x, number) in around(2.0, 7) {
        for (alpha, number) in [(255, number), (0, 0)] {
            let mut call = groups::Call::of(rng, size, 1);
            call.zero = None;
            (call.pixels, call.oklab) = (vec![1, 2, 3, alpha], vec![0.5, 0.5, x]);
            let compared = groups::grouped(&call, tally);
            listed(tally, &format!("component {x:?}, alpha {alpha}"), "grouping", compared, number);
        }
    }
}
