//! Every colour of small calls damaged, in each component, and every two of them, through every call that names a colour; and the last
//! colours of the largest jobs, whose indexes are listed.

use terms::rng::Rng;
use terms::{Palette, Tile};

use super::records::belonging;
use super::runs::standing;
use super::{around, at, colours_in_all, job, listed, tile};
use crate::call::Ask;
use crate::damage::entries::Part;
use crate::kinds::calls::Call;
use crate::kinds::entries::{Good, PLAIN};
use crate::lent::nans;
use crate::table::Refusal;
use crate::tally::Tally;

pub fn compare(rng: &mut Rng, size: usize, tally: &mut Tally) {
    let tiles = vec![tile(2), tile(0), tile(3)];
    for call in [runs(size, [2, 2], &tiles), plain(rng, size, [2, 2], &tiles)].concat() {
        every_component(tally, &call);
        every_two(tally, &call);
    }
    largest_runs(size, tally);
    largest_plain(rng, size, tally);
}

/// A start, and what belongs to each stage.
fn runs(size: usize, sizes: [usize; 2], tiles: &[Tile]) -> Vec<Good> {
    let job = job(size, sizes, tiles.to_vec(), 20);
    let start = Good::Run(standing(&job, 0).without_numbers(), Ask::Start(9));
    let belong = (0..8).map(|stage| standing(&job, stage)).map(|call| Good::Run(call.clone(), belonging(&call)));
    [start].into_iter().chain(belong).collect()
}

/// Single fit and `best_two` of the last tile; assign, writer and reader.
fn plain(rng: &mut Rng, size: usize, [s, c]: [usize; 2], tiles: &[Tile]) -> Vec<Good> {
    let palette: Palette = vec![vec![[0.25, -0.5, 0.5]; c]; s];
    let taken = |k: usize| if k < 2 { &tiles[tiles.len() - 1..] } else { tiles };
    let call = |(k, plain)| Good::Plain(Call::new(rng, size, &palette, taken(k), 2.15), plain);
    PLAIN.iter().enumerate().map(call).collect()
}

/// All colours that a call looks at: the number of the part, and the colour in it.
fn colours(call: &Good) -> Vec<(usize, usize)> {
    let of_part = |(k, part): (usize, &Part)| (0..part.colours()).map(|colour| (k, colour)).collect::<Vec<_>>();
    call.clone().parts().iter().enumerate().flat_map(of_part).collect()
}

fn every_component(tally: &mut Tally, call: &Good) {
    let of_colour = |(part, colour)| (0..3).map(move |component| (part, colour, component));
    colours(call).into_iter().flat_map(of_colour).for_each(|place| every_value(tally, call, place));
}

/// At the limit, which is accepted, past it, and what is no number.
fn every_value(tally: &mut Tally, call: &Good, place: (usize, usize, usize)) {
    let (part, colour, component) = place;
    let mut damaged = call.clone();
    let (said, limit) = (damaged.parts()[part].said(colour), damaged.parts()[part].limit);
    for (x, number) in around(limit, said.number) {
        damaged.parts()[part].put(colour, component, x);
        let what = format!("component {component} of colour {colour} of part {part} is {x:?}");
        let compared = damaged.compared(tally);
        listed(tally, &what, call.name(), compared, at(number, said.index));
    }
}

/// The parts stand in the order of the tests, so that the first of two colours is told, whatever stands in either.
fn every_two(tally: &mut Tally, call: &Good) {
    let all = colours(call);
    for (i, j) in (0..all.len()).flat_map(|j| (0..j).map(move |i| (i, j))) {
        let [(part, colour), (other, second)] = [all[i], all[j]];
        let mut damaged = call.clone();
        let mut parts = damaged.parts();
        let (said, over) = (parts[part].said(colour), parts[part].limit.next_up());
        parts[part].put(colour, j % 3, if (i + j) % 2 == 0 { over } else { nans(4)[j % 4] });
        parts[other].put(second, i % 3, f32::NEG_INFINITY);
        let what = format!("colour {colour} of part {part} and {second} of part {other}");
        let compared = damaged.compared(tally);
        listed(tally, &what, call.name(), compared, said);
    }
}

/// 256 places in a palette, 16,384 tile colours.
fn largest_runs(size: usize, tally: &mut Tally) {
    let (tile, first, second, handed_in) = (at(7, 16_383), at(16, 255), at(16, 511), at(17, 255));
    for call in &runs(size, [16, 16], &colours_in_all(size, 16_384)) {
        let right = match call {
            Good::Run(_, Ask::Start(_)) => vec![tile],
            Good::Run(_, Ask::HandIn(_)) => vec![tile, first, handed_in],
            Good::Run(run, _) if run.stage() == 2 => vec![tile, first, second],
            _ => vec![tile, first],
        };
        last_of_parts(tally, call, &right);
    }
}

/// The same, and as many colours of one tile as can be; beside such a palette a sheet to be read has bytes for 4,893 tile colours in tiles
/// of 64, for 4,802 in tiles of 256.
fn largest_plain(rng: &mut Rng, size: usize, tally: &mut Tally) {
    let (of_sheet, lasts) = if size == 64 { (4_893, [319, 5_148]) } else { (4_802, [511, 5_057]) };
    let [of_tile, of_sheets] = lasts;
    let mut calls = plain(rng, size, [16, 16], &colours_in_all(size, 16_384));
    calls[4] = plain(rng, size, [16, 16], &colours_in_all(size, of_sheet)).swap_remove(4);
    for (call, last) in calls.iter().zip([of_tile, of_tile, 16_639, 16_639, of_sheets]) {
        last_of_parts(tally, call, &[at(7, 255), at(7, last)]);
    }
}

/// What is said of the last colour of each part.
fn last_of_parts(tally: &mut Tally, call: &Good, right: &[Refusal]) {
    tally.same(call.clone().parts().len(), right.len(), || format!("parts of the largest {}", call.name()));
    for (k, &right) in right.iter().enumerate() {
        let mut damaged = call.clone();
        let part = &mut damaged.parts()[k];
        part.put(part.colours() - 1, 2, f32::NAN);
        let compared = damaged.compared(tally);
        listed(tally, &format!("the last colour of part {k}"), call.name(), compared, right);
    }
}
