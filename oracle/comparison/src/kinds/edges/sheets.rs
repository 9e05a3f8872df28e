//! Edges of a sheet, through the reader: fields, edition, size, and the room that is lent; the size through the writer, too.

use terms::Tile;
use terms::sheet::{EDITIONS, Edition, MOST_BYTES, Sheet, written};

use super::{around, at, colours_in_all, component, counted, listed, sums, tiles, weights};
use crate::kinds::sheets::{ROOM, read_into, written_into};
use crate::table::{Given, Refusal};
use crate::tally::Tally;

pub fn compare(size: usize, tally: &mut Tally) {
    let edition = Edition::of(size).unwrap();
    of_fields(edition, tally);
    of_editions(edition, tally);
    of_sizes(edition, tally);
    of_room(edition, tally);
}

pub fn sheet(edition: Edition, tiles: Vec<Tile>) -> Sheet {
    Sheet { edition, weight: 2.15, palette: vec![vec![[0.25, -0.5, 0.5]; 2]; 2], tiles }
}

fn read(tally: &mut Tally, what: &str, sheet: &Sheet, right: impl Into<Refusal>) {
    let compared = read_into(sheet.edition.size, &written(sheet), ROOM, tally);
    listed(tally, what, "reader", compared, right);
}

fn of_fields(edition: Edition, tally: &mut Tally) {
    let (size, sheet) = (edition.size, |tiles: Vec<Tile>| sheet(edition, tiles));
    for c in [1, 16] {
        let palette = vec![vec![[0.5; 3]; c]; 17 - c];
        read(tally, "S and C", &Sheet { palette, ..sheet(tiles(1, 1)) }, 0);
    }
    // its field can say up to twice the size, less one
    for (n, number) in [(0, 0), (1, 0), (size - 1, 0), (size, 0), (size + 1, 5), (2 * size - 1, 5)] {
        read(tally, &format!("a tile of {n} colours"), &sheet(tiles(1, n)), number);
    }
    // one colour cannot be counted more often than the size
    for (counts, number) in sums(size).into_iter().filter(|(counts, _)| counts.iter().all(|&k| k as usize <= size)) {
        read(tally, &format!("counts {counts:?}"), &sheet(counted(&counts)), number);
    }
    for (x, number) in around(2.0, 7) {
        // tile colours are counted on from the four of the palette
        read(tally, &format!("component {x:?}"), &sheet(component(x)), at(number, 4));
        let mut edged = sheet(tiles(1, 1));
        edged.palette[1][1][2] = x;
        read(tally, &format!("palette component {x:?}"), &edged, at(number, 3));
    }
    for (weight, number) in weights() {
        read(tally, &format!("weight {weight:?}"), &Sheet { weight, ..sheet(tiles(1, 1)) }, number);
    }
    read(tally, "T 1,024", &sheet(tiles(1024, 1)), 0);
}

/// The fields of an edition with every number that the four bits may have: the reader of either edition takes its own alone, and one that
/// is told another answers 12.
fn of_editions(edition: Edition, tally: &mut Tally) {
    for number in 0..16 {
        let bytes = written(&sheet(Edition { number, ..edition }, tiles(2, 2)));
        for told in EDITIONS {
            let compared = read_into(told.size, &bytes, ROOM, tally);
            let right = if number == told.number { 0 } else { 12 };
            // these fields under the other's number are read as the other's, whatever comes of it
            if right == 12 || told.number == edition.number {
                listed(tally, &format!("edition {number} told {}", told.size), "reader", compared, right);
            }
        }
    }
}

/// A sheet of exactly so many bytes, the last of its tiles empty.
pub fn of_bytes(edition: Edition, bytes: usize) -> Sheet {
    let bits = |t: usize, n: usize| edition.bits_without_colours(4, t) + edition.colour_bits() * n;
    let colours = |t: usize| (0..5140).rev().find(|&n| bits(t, n).div_ceil(8) == bytes);
    let (t, n) = (81..=1024).find_map(|t| Some((t, colours(t)?))).unwrap();
    let mut all = colours_in_all(edition.size, n);
    all.resize(t, Tile::default());
    sheet(edition, all)
}

/// Read, and written into room for more.
fn of_sizes(edition: Edition, tally: &mut Tally) {
    for (bytes, number) in [(MOST_BYTES - 1, 0), (MOST_BYTES, 0), (MOST_BYTES + 1, 13)] {
        let sheet = of_bytes(edition, bytes);
        let whole = written(&sheet);
        tally.same(whole.len(), bytes, || "the bytes of a sheet".to_string());
        let compared = read_into(edition.size, &whole, ROOM, tally);
        listed(tally, &format!("{bytes} bytes"), "reader", compared, number);
        let given = Given::new(edition.size, &sheet.palette, &sheet.tiles, sheet.weight);
        let numbers: Vec<f32> = sheet.palette.into_iter().flatten().flatten().collect();
        let compared = written_into(&given, &numbers, &[0x5a; MOST_BYTES + 2], tally);
        listed(tally, &format!("{bytes} bytes"), "writer", compared, number);
    }
}

fn of_room(edition: Edition, tally: &mut Tally) {
    let bytes = written(&sheet(edition, tiles(2, 2)));
    for place in 0..4 {
        for (has, number) in [(ROOM[place], 0), (ROOM[place] + 1, 0), (ROOM[place] - 1, 3), (0, 3)] {
            let mut room = ROOM;
            room[place] = has;
            let compared = read_into(edition.size, &bytes, room, tally);
            listed(tally, &format!("room {room:?}"), "reader", compared, number);
        }
    }
    // room before bytes, bytes before the opening
    for (room, number) in [([0; 4], 3), (ROOM, 13)] {
        let compared = read_into(edition.size, &[0; MOST_BYTES + 1], room, tally);
        listed(tally, &format!("too many bytes, room {room:?}"), "reader", compared, number);
    }
}
