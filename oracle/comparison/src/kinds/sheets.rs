//! The fit sheet, against a reader and a writer that are written here: sheets of all sizes up to the limit, each bit of small ones
//! changed, each cut of them, each byte added to them, faults in pairs, and what is no number in each component's place.

use terms::jobs::{self, Colours};
use terms::rng::Rng;
use terms::sheet::{EDITIONS, Edition, MOST_BYTES, Sheet, written};

use super::calls::Call;
use super::{JOBS, Kind, SIZES, kind, whole};
use crate::damage::sheets::{added, damages};
use crate::lent::{Bits, nans};
use crate::ours::{self, Job};
use crate::sheet;
use crate::table::{Given, Refusal, unless};
use crate::tally::Tally;
use crate::{damage, lent, table};

pub const KINDS: &[Kind] = &[
    kind("sheet reading", 10_000, 100_000, reading).bringing(JOBS),
    whole("sheet example", 2, example).bringing(SIZES),
    kind("sheet bits", 6, 50, bits).bringing(SIZES),
    kind("sheets", 20, 1_000, sheets).bringing(JOBS),
    kind("largest sheets", 36, 300, largest).bringing(SIZES),
    kind("sheet writing", 10_000, 100_000, writing).bringing(JOBS),
];

/// The room that a reading needs: tile entries of two numbers, colours of three, counts, palette numbers.
pub const ROOM: [usize; 4] = [2048, 15_420, 5140, 768];

/// A sheet of a few tiles, of either edition.
pub fn small(rng: &mut Rng) -> Sheet {
    let (edition, colours) = (rng.pick(&EDITIONS), Colours::any(rng, 2.0));
    let (s, c) = (rng.pick(&[1, 2, 3, 16]), rng.pick(&[1, 2, 16]));
    let t = rng.among(1, 5);
    Sheet {
        edition,
        weight: jobs::weight(rng),
        palette: jobs::palette(rng, s, c, &colours, 2.0),
        tiles: jobs::tiles(rng, edition.size, t, &colours),
    }
}

/// A sheet with up to three damages, into room that may be too little or more than enough; now and then another tile size is told.
fn reading(rng: &mut Rng, _: u64, tally: &mut Tally) {
    let sheet = small(rng);
    let mut bytes = written(&sheet);
    for _ in 0..rng.pick(&[0, 1, 1, 2, 3]) {
        damage::sheets::damage(rng, &mut bytes);
    }
    let size = if rng.once_in(8) { damage::tile_size(rng) } else { sheet.edition.size };
    let mut room = ROOM;
    if rng.once_in(4) {
        let place = rng.below(4);
        room[place] = rng.pick(&[room[place] - 1, room[place] + 1, 0, room[place] + 77]);
    }
    read_into(size, &bytes, room, tally);
}

/// A sheet of at most two subpalettes of two colours and three tiles of at most 64, damaged.
fn bits(rng: &mut Rng, case: u64, tally: &mut Tally) {
    let mut sheet = small(rng);
    sheet.edition = EDITIONS[case as usize % 2];
    sheet.palette.truncate(2);
    sheet.palette.iter_mut().for_each(|sub| sub.truncate(2));
    let (t, colours) = (rng.among(1, 3), Colours::any(rng, 2.0));
    sheet.tiles = jobs::tiles(rng, 64, t, &colours);
    let bytes = written(&sheet);
    let damaged = damages(&bytes).chain(added(&bytes, bytes.len()));
    damaged.for_each(|damaged| compare(sheet.edition, &damaged, tally));
}

/// The scope's example, damaged, by the reader of either edition; and with every byte put in at every place.
fn example(_: &mut Rng, case: u64, tally: &mut Tally) {
    let edition = EDITIONS[case as usize];
    let bytes = written(&sheet::example(edition));
    for damaged in damages(&bytes) {
        EDITIONS.iter().for_each(|&told| compare(told, &damaged, tally));
    }
    let places = (0..=bytes.len()).flat_map(|place| added(&bytes, place));
    places.for_each(|damaged| compare(edition, &damaged, tally));
}

/// Of any size up to the limit: read, and written again.
fn sheets(rng: &mut Rng, case: u64, tally: &mut Tally) {
    let (edition, colours) = (EDITIONS[case as usize % 2], Colours::any(rng, 2.0));
    let (s, c, t) = (jobs::sixteen(rng), jobs::sixteen(rng), rng.among(1, 1024));
    let mut sheet = Sheet {
        edition,
        weight: jobs::weight(rng),
        palette: jobs::palette(rng, s, c, &colours, 2.0),
        tiles: jobs::tiles(rng, edition.size, t, &colours),
    };
    while written(&sheet).len() > MOST_BYTES {
        sheet.tiles.truncate(sheet.tiles.len() * 3 / 4);
    }
    let bytes = written(&sheet);
    tally.add("sheets", 1);
    tally.add("bytes of sheets", bytes.len() as u64);
    compare(edition, &bytes, tally);
    written_again(edition, &bytes, tally);
}

/// What our reader makes of a sheet, by our writer: the same bytes.
fn written_again(edition: Edition, bytes: &[u8], tally: &mut Tally) {
    let found = Given::new(edition.size, &vec![vec![[0.0; 3]]], &[], 1.0);
    let room = Given { tiles: vec![0; ROOM[0]], colours: vec![0.0; ROOM[1]], counts: vec![0; ROOM[2]], ..found };
    let (mut job, mut palette) = (Job::lent(&room), lent::floats(&vec![0.0; ROOM[3]]));
    let refusal = ours::sheet_read(&lent::bytes(bytes), &mut job, &mut palette);
    let tiles = &job.tiles.values()[..2 * job.t];
    let colours = tiles.chunks(2).map(|entry| entry[1] as usize).sum::<usize>();
    let given = Given {
        size: job.size,
        s: job.s,
        c: job.c,
        t: job.t,
        weight: job.weight,
        tiles: tiles.to_vec(),
        colours: job.colours.values()[..3 * colours].to_vec(),
        counts: job.counts.values()[..colours].to_vec(),
    };
    let numbers = &palette.values()[..3 * job.s * job.c];
    let mut dst = lent::bytes(&vec![0; bytes.len()]);
    let wrote = ours::sheet_write(&Job::lent(&given), &lent::floats(numbers), &mut dst);
    let done = Refusal::default();
    tally.same((refusal, wrote, dst.values().to_vec()), (done, (done, bytes.len()), bytes.to_vec()), || {
        format!("{} bytes", bytes.len())
    });
}

/// Near 65,536 bytes: so many colours are filled in that the sheet is just below, at or above.
pub fn large(rng: &mut Rng, edition: Edition, more: usize) -> Sheet {
    let colours = Colours::any(rng, 2.0);
    let t = rng.pick(&[81, 100, 1024]);
    let fit = (8 * MOST_BYTES - edition.bits_without_colours(1, t)) / edition.colour_bits();
    let palette = jobs::palette(rng, 1, 1, &colours, 2.0);
    let mut sheet = Sheet { edition, weight: 2.15, palette, tiles: vec![Default::default(); t] };
    for k in 0..fit - 1 + more % 3 {
        let tile = &mut sheet.tiles[k / edition.size];
        tile.colours.push(colours.one(rng, 2.0));
        tile.counts.push(1);
    }
    sheet
}

fn largest(rng: &mut Rng, case: u64, tally: &mut Tally) {
    let edition = EDITIONS[case as usize % 2];
    let bytes = written(&large(rng, edition, case as usize / 2));
    compare(edition, &bytes, tally);
    let size = rng.pick(&[MOST_BYTES, MOST_BYTES + 1, 2 * MOST_BYTES]);
    compare(edition, &[bytes, vec![0; size]].concat()[..size], tally);
}

/// By the reader of an edition.
fn compare(edition: Edition, bytes: &[u8], tally: &mut Tally) {
    read_into(edition.size, bytes, ROOM, tally);
}

/// Room of these sizes, with numbers in it that no sheet has; the last is the palette's.
fn unread(size: usize, room: [usize; 4]) -> (Given, Vec<f32>) {
    let found = Given {
        size,
        s: 77,
        c: 78,
        t: 79,
        weight: 80.0,
        tiles: vec![0x5a5a_5a5a; room[0]],
        colours: nans(room[1]),
        counts: vec![0x5a5a_5a5a; room[2]],
    };
    (found, nans(room[3]))
}

/// Fills in what a sheet holds; what it does not fill stays.
fn fill(sheet: &Sheet, room: &mut Given, palette: &mut [f32]) {
    let given = Given::new(room.size, &sheet.palette, &sheet.tiles, sheet.weight);
    room.tiles[..given.tiles.len()].copy_from_slice(&given.tiles);
    room.colours[..given.colours.len()].copy_from_slice(&given.colours);
    room.counts[..given.counts.len()].copy_from_slice(&given.counts);
    (room.s, room.c, room.t, room.weight) = (given.s, given.c, given.t, given.weight);
    let numbers: Vec<f32> = sheet.palette.iter().flatten().flatten().copied().collect();
    palette[..numbers.len()].copy_from_slice(&numbers);
}

/// Told a tile size, reads into room of these sizes: what is filled, and what stays. Gives what the reading here says of it.
pub fn read_into(size: usize, bytes: &[u8], room: [usize; 4], tally: &mut Tally) -> Refusal {
    let enough = room.iter().zip(ROOM).all(|(has, needs)| *has >= needs);
    let lent = table::first(&[(2, &|| unless(table::tile_size(size))), (3, &|| unless(enough))]);
    let read = if lent.number == 0 { sheet::read(size, bytes) } else { Err(lent) };
    let (mut right, mut right_palette) = unread(size, room);
    let (lent_bytes, mut job, mut palette) = (lent::bytes(bytes), Job::lent(&right), lent::floats(&right_palette));
    if let Ok(sheet) = &read {
        fill(sheet, &mut right, &mut right_palette);
        tally.tiles(&sheet.tiles);
    }

    let right_refusal = read.err().unwrap_or_default();
    let refusal = ours::sheet_read(&lent_bytes, &mut job, &mut palette);
    tally.answered("sheet reader", size, right_refusal);
    tally.left(right.colours.iter().chain(&right_palette));
    let kept = lent_bytes.untouched() && job.guarded() && palette.guarded();
    let sizes = (job.s, job.c, job.t, job.weight);
    let ours = (job.tiles.values(), Bits(job.colours.values()), job.counts.values());
    let right_sizes = (right.s, right.c, right.t, right.weight);
    let rights = (&right.tiles[..], Bits(&right.colours), &right.counts[..]);
    tally.same(
        (refusal, sizes, ours, Bits(palette.values()), kept),
        (right_refusal, right_sizes, rights, Bits(&right_palette), true),
        || format!("told {size}, {bytes:02x?}"),
    );
    right_refusal
}

/// A job with its palette, damaged or not, into bytes of any number.
fn writing(rng: &mut Rng, case: u64, tally: &mut Tally) {
    let edition = EDITIONS[case as usize / 500 % 2];
    let sheet = if case.is_multiple_of(500) { large(rng, edition, case as usize / 1000) } else { small(rng) };
    let mut given = Given::new(sheet.edition.size, &sheet.palette, &sheet.tiles, sheet.weight);
    let mut numbers: Vec<f32> = sheet.palette.iter().flatten().flatten().copied().collect();
    for _ in 0..rng.pick(&[0, 0, 1, 2]) {
        damage::damage(rng, &mut given, &mut numbers);
    }
    let size = sheet_of(&given, &numbers).map_or(0, |bytes| bytes.len());
    let room = match rng.below(4) {
        0 => size.saturating_sub(1),
        1 => size + rng.below(40),
        2 => size / 2,
        _ => size,
    };
    let found: Vec<u8> = (0..room).map(|_| rng.word() as u8).collect();
    written_into(&given, &numbers, &found, tally);
}

/// The job and palette of a call into room for any sheet. Gives what the scope says of it.
pub fn job_written(call: &Call, tally: &mut Tally) -> Refusal {
    written_into(&call.given, &call.palette, &[0x5a; 70_000], tally)
}

/// The sheet of a call's job and palette, by the reader of its edition. Gives what the reading here says of it.
pub fn job_read(call: &Call, tally: &mut Tally) -> Refusal {
    let size = call.given.size;
    read_into(size, &written(&holding(&call.given, &call.palette)), ROOM, tally)
}

/// The sheet that holds a job, whose tile size and table are right, and its palette.
fn holding(given: &Given, numbers: &[f32]) -> Sheet {
    let edition = Edition::of(given.size).unwrap();
    Sheet { edition, weight: given.weight, palette: table::subs(given, numbers), tiles: given.tiles() }
}

/// The bytes of the sheet, or the refusal, whatever the room.
fn sheet_of(given: &Given, numbers: &[f32]) -> Result<Vec<u8>, Refusal> {
    match table::plain(given, numbers, true, true) {
        Refusal { number: 0, .. } => {}
        refusal => return Err(refusal),
    }
    let bytes = written(&holding(given, numbers));
    if bytes.len() > MOST_BYTES { Err(13.into()) } else { Ok(bytes) }
}

/// Writes where these bytes are found: what is filled, and what stays. Gives what the scope says of it.
pub fn written_into(given: &Given, numbers: &[f32], found: &[u8], tally: &mut Tally) -> Refusal {
    let fits = |bytes: Vec<u8>| if bytes.len() <= found.len() { Ok(bytes) } else { Err(3.into()) };
    let sheet = sheet_of(given, numbers).and_then(fits);
    let (refusal, bytes) = (sheet.as_ref().err().copied().unwrap_or_default(), sheet.unwrap_or_default());
    if refusal.number == 0 {
        tally.tiles(&given.tiles());
    }
    let right = [&bytes[..], &found[bytes.len()..]].concat();

    let (job, palette, mut dst) = (Job::lent(given), lent::floats(numbers), lent::bytes(found));
    let answer = ours::sheet_write(&job, &palette, &mut dst);
    let kept = job.untouched() && palette.untouched() && dst.guarded();
    tally.answered("sheet writer", given.size, refusal);
    tally.left(given.colours.iter().chain(numbers));
    tally.same((answer, dst.values().to_vec(), kept), ((refusal, bytes.len()), right, true), || {
        format!("{given:?} {numbers:?}")
    });
    refusal
}
