//! The tile size: those that there are not, in every public call, 2 before all else; and tiles and pixels beside the limits of both
//! sizes, in calls that are told one of them.

use terms::rng::Rng;
use terms::sheet::{Edition, MOST_BYTES, written};

use super::runs::{ask, asks, each as each_of_run, standing};
use super::{counted, job, listed, plain, sheets, tiles};
use crate::damage::NO_TILE_SIZES;
use crate::kinds::groups;
use crate::kinds::sheets::{ROOM, read_into};
use crate::tally::Tally;

pub fn compare(rng: &mut Rng, size: usize, tally: &mut Tally) {
    for none in NO_TILE_SIZES {
        none_of_runs(size, none, tally);
        none_of_plain(rng, size, none, tally);
        none_of_grouping(rng, size, none, tally);
        none_of_reader(size, none, tally);
    }
    for many in [63, 64, 65, 255, 256, 257] {
        around_limits(rng, size, many, tally);
    }
}

/// All four calls in every stage; and with nothing lent, which is 3.
fn none_of_runs(size: usize, none: usize, tally: &mut Tally) {
    for stage in 0..8 {
        let mut call = standing(&job(size, [2, 2], tiles(2, 3), 20), stage);
        call.given.size = none;
        let mut bare = call.clone();
        (bare.given.tiles, bare.given.counts, bare.samples) = Default::default();
        (bare.memory.order, bare.memory.hints) = Default::default();
        for asked in asks(&call) {
            ask(tally, &format!("tile size {none}"), &call, &asked, 2);
            ask(tally, &format!("tile size {none}, nothing lent"), &bare, &asked, 2);
        }
    }
}

/// Single fit, `best_two`, assign and the writer, the same way.
fn none_of_plain(rng: &mut Rng, size: usize, none: usize, tally: &mut Tally) {
    let mut call = plain::good(rng, size, &tiles(1, 2));
    call.given.size = none;
    let mut bare = call.clone();
    (bare.given.tiles, bare.given.counts, bare.palette, bare.hints, bare.out) = Default::default();
    plain::each(tally, &format!("tile size {none}"), &call, [2; 4]);
    plain::each(tally, &format!("tile size {none}, nothing lent"), &bare, [2; 4]);
}

fn none_of_grouping(rng: &mut Rng, size: usize, none: usize, tally: &mut Tally) {
    for pixels in [0, 1, 64, size] {
        let mut call = groups::Call::of(rng, size, pixels);
        call.size = none;
        let mut bare = call.clone();
        (bare.pixels, bare.oklab) = Default::default();
        for call in [call, bare] {
            let compared = groups::grouped(&call, tally);
            listed(tally, &format!("tile size {none}, {pixels} pixels"), "grouping", compared, 2);
        }
    }
}

/// A sheet, no byte of it, too many bytes; with enough room and with none.
fn none_of_reader(size: usize, none: usize, tally: &mut Tally) {
    let sheet = written(&sheets::sheet(Edition::of(size).unwrap(), tiles(2, 2)));
    for bytes in [&sheet[..], &[], &[0; MOST_BYTES + 1]] {
        for room in [ROOM, [0; 4]] {
            let compared = read_into(none, bytes, room, tally);
            listed(tally, &format!("tile size {none}, room {room:?}"), "reader", compared, 2);
        }
    }
}

/// A tile of so many colours, a colour counted so often, so many pixels: what is too many for one size may do for the other.
fn around_limits(rng: &mut Rng, size: usize, many: usize, tally: &mut Tally) {
    let [colours, count, pixels] = if many <= size { [0; 3] } else { [5, 6, 2] };
    for (tiles, number) in [(tiles(1, many), colours), (counted(&[many as u32]), count)] {
        let what = format!("{} colours, counted {} times, told {size}", tiles[0].counts.len(), tiles[0].counts[0]);
        plain::each(tally, &what, &plain::good(rng, size, &tiles), [number; 4]);
        each_of_run(tally, &what, &job(size, [2, 2], tiles, 20), [number; 4], |_, _| {});
    }
    let compared = groups::grouped(&groups::Call::of(rng, size, many), tally);
    listed(tally, &format!("{many} pixels, told {size}"), "grouping", compared, pixels);
}
