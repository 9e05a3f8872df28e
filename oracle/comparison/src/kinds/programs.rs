//! The programs as processes: all that they write, for sheets whole and damaged, small and near the limit.

mod train;

use std::io::Write;
use std::process::{Command, Stdio};

use terms::rng::Rng;
use terms::sheet::{EDITIONS, Edition, MOST_BYTES, written};

use super::edges::sheets::of_bytes;
use super::{JOBS, Kind, SIZES, TILES, kind, sheets, whole};
use crate::damage::sheets as damage;
use crate::sheet::{self, fitted::fitted};
use crate::tally::Tally;

pub const KINDS: &[Kind] = &[
    kind("program fit", 300, 3_000, fit).bringing(JOBS),
    whole("program fit, example", 2, fit_example).bringing(SIZES),
    whole("program fit, editions", 16, fit_editions).bringing(SIZES),
    whole("program fit, limits", 6, fit_limits).bringing(SIZES),
    kind("program train", 200, 3_000, train::any).bringing(JOBS),
    whole("program train, example", 2, train::example).bringing(SIZES),
    whole("program train, editions", 16, train::editions).bringing(SIZES),
    whole("program train, limits", 6, train::limits).bringing(SIZES),
    whole("program train, edges", 10, train::edges).bringing(TILES),
];

/// Runs a program of ours, seen from the folder that the comparison runs in.
fn command(program: &str) -> Command {
    Command::new(format!("../target/bin/{program}"))
}

/// A sheet of either edition, small or near the limit, damaged or not.
fn any(rng: &mut Rng, case: u64) -> Vec<u8> {
    let edition = rng.pick(&EDITIONS);
    let sheet = if rng.once_in(10) { sheets::large(rng, edition, case as usize) } else { sheets::small(rng) };
    let mut bytes = written(&sheet);
    for _ in 0..rng.pick(&[0, 0, 1, 2]) {
        damage::damage(rng, &mut bytes);
    }
    bytes
}

/// The scope's example with every bit changed, every cut of it, every byte after it.
fn examples(case: u64) -> Vec<Vec<u8>> {
    let bytes = written(&sheet::example(EDITIONS[case as usize]));
    damage::damages(&bytes).chain(damage::added(&bytes, bytes.len())).collect()
}

/// The scope's example in the fields of either edition, with each number that an edition may have: two of these are right. Each with
/// another opening, too, and cut behind the number.
fn editions(case: u64) -> Vec<Vec<u8>> {
    let named = |edition: Edition| written(&sheet::example(Edition { number: case as u32, ..edition }));
    let spoilt = |bytes: Vec<u8>| {
        let opening = [b"TFIS", &bytes[4..]].concat();
        let cut = bytes[..5].to_vec();
        [bytes, opening, cut]
    };
    EDITIONS.into_iter().map(named).flat_map(spoilt).collect()
}

/// One byte less than a sheet may have, as many, and one more, in either edition.
fn limits(case: u64) -> Vec<u8> {
    written(&of_bytes(EDITIONS[case as usize % 2], MOST_BYTES - 1 + case as usize / 2))
}

fn fit(rng: &mut Rng, case: u64, tally: &mut Tally) {
    fits(&any(rng, case), tally);
}

fn fit_example(_: &mut Rng, case: u64, tally: &mut Tally) {
    examples(case).iter().for_each(|bytes| fits(bytes, tally));
}

fn fit_editions(_: &mut Rng, case: u64, tally: &mut Tally) {
    editions(case).iter().for_each(|bytes| fits(bytes, tally));
}

fn fit_limits(_: &mut Rng, case: u64, tally: &mut Tally) {
    fits(&limits(case), tally);
}

fn fits(bytes: &[u8], tally: &mut Tally) {
    let read = sheet::read_either(bytes);
    answered("program fit", bytes, read.as_ref().err().map_or(0, |refusal| refusal.number), tally);
    if let Ok(sheet) = read {
        let blank = sheet.tiles.iter().filter(|tile| tile.counts.is_empty()).count();
        tally.add("tiles counted in a load", (sheet.tiles.len() - blank) as u64);
        tally.add("blank tiles", blank as u64);
        tally.add("sheets of blank tiles alone", u64::from(blank == sheet.tiles.len()));
    }
    same("fit", bytes, fitted(bytes).into_bytes(), tally);
}

/// A sheet is counted by the edition that it names; its tiles where it is accepted.
fn answered(program: &'static str, bytes: &[u8], number: u32, tally: &mut Tally) {
    let edition = |byte: &u8| EDITIONS.into_iter().find(|edition| edition.number == u32::from(byte >> 4));
    let size = bytes.get(4).and_then(edition).map_or(0, |edition| edition.size);
    tally.answered(program, size, number);
    if number == 0 {
        tally.tiles(&sheet::read_either(bytes).unwrap().tiles);
    }
}

/// What a program writes for these bytes, beside what is right.
fn same(program: &str, bytes: &[u8], right: Vec<u8>, tally: &mut Tally) {
    let ours = ran(program, bytes).unwrap_or_else(|why| format!("{program}: {why}").into_bytes());
    tally.same(ours, right, || format!("a sheet of {} bytes", bytes.len()));
}

/// What a program writes.
fn ran(program: &str, bytes: &[u8]) -> std::io::Result<Vec<u8>> {
    let mut process = command(program).stdin(Stdio::piped()).stdout(Stdio::piped()).spawn()?;
    // a program that has read enough may close its end first
    let _ = process.stdin.take().unwrap().write_all(bytes);
    Ok(process.wait_with_output()?.stdout)
}
