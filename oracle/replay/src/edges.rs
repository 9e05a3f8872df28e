//! The limits that docs/SCOPE.md has run, on both sides, by every public call that they concern. A case's first word says what it
//! has; values are f32 patterns. Large jobs are made here from a few numbers: the tile size, S, C, T, the colours of a tile, the sum of
//! its counts, a component of the last tile colour, the weight; palettes from a component of their last colour.
//! 1: a job, n samples, a seed of two words, the number of calls. A call is 0 a start, 1 an allotment of two words and an advance, 2 a
//!    component and a hand-in, 3 a result, 4 a place in both working palettes in a row, a component and an advance on a copy that has it
//!    there, 5 a number of two words and an advance on a copy that has it as its record's last word; 6 is no call but the tile size that
//!    those behind it are told. 2: a job and a component, by `assign`, single fit, `best_two` and the sheet's writer.
//! 3: a sheet, the tile size that its reader is told, its number of bytes and its bytes, four to a word. 4: a tile size and p pixels to
//!    group, each r, g, b, a in a word and its Oklab.
//! After each call its number. Where that is 0, what the call answers, in numbers of two words, and the digest of all memory that it is
//! lent to write, from 0 as in the list of leaves; after any other number the index that goes with it, and nothing is written.

use crate::calls::{self, Answer, Entries};
use crate::leaves::digested;
use crate::list::{List, Read};
use foreign::shipped::{self, Job, Memory};

/// What stands in lent memory before a call: as a float it is a signalling NaN.
const FOUND: u32 = 0x7fa5_a5a5;
/// The numbers of a palette, tile entries and counts that a reading has room for.
const ROOM: [usize; 3] = [768, 2048, 5140];
const MOST_SIZE: usize = 16;
const MOST_TILES: usize = 64;
const MOST_COLOURS: usize = 257;
const MOST_SAMPLES: usize = 16_385;
const MOST_BYTES: usize = 4096;
const MOST_PIXELS: usize = 257;

pub fn case(list: &mut List) -> Read<()> {
    match list.word()? {
        1 => run(list),
        2 => fits(list),
        3 => sheet(list),
        4 => grouping(list),
        kind => list.refuse(format!("there is no case {kind}")),
    }
}

/// Our answer to a call beside the list's: number and index, what is answered, and the memory that was lent, before and after.
fn same_outcome(list: &mut List, answer: Answer, told: &[u64], lent: &[u64], left: &[u64]) -> Read<()> {
    let (number, index) = answer;
    let right = list.word()?;
    list.compare(number == right);
    if right != 0 {
        list.same_index(index)?;
        list.compare(told.iter().all(|&x| x == 0) && lent == left);
        return Ok(());
    }
    list.same_doubles(told)?;
    list.same_double(left.iter().fold(0, |digest, &x| digested(digest, x)))
}

/// Lent memory in a row.
fn words(numbers: &[&[u32]], floats: &[&[f32]]) -> Vec<u64> {
    let numbers = numbers.iter().copied().flatten().map(|&x| x.into());
    numbers.chain(floats.iter().copied().flatten().map(|x| x.to_bits().into())).collect()
}

/// Tiles of as many colours; each count is 1 but a tile's last.
fn job(list: &mut List) -> Read<Job> {
    let [size, s, c] = [list.word()? as usize, list.number(MOST_SIZE)?, list.number(MOST_SIZE)?];
    let [t, each, sum] = [list.number(MOST_TILES)?, list.number(MOST_COLOURS)?, list.number(2 * MOST_COLOURS)?];
    let (component, weight) = (list.float()?, list.float()?);
    if t == 0 || each == 0 || sum < each {
        return list.refuse("no such job is made");
    }
    let colour = |i: usize, k: usize| [(k % 64) as f32 / 64.0, i as f32 / 64.0, -(k as f32) / 128.0];
    let mut job = Job { size, s, c, t, weight, ..Job::default() };
    for i in 0..t {
        job.tiles.extend([(i * each) as u32, each as u32]);
        job.counts.extend((1..=each).map(|k| if k < each { 1 } else { (sum + 1 - each) as u32 }));
        job.colours.extend((0..each).flat_map(|k| colour(i, k)));
    }
    job.colours[3 * t * each - 2] = component;
    Ok(job)
}

fn palette(job: &Job, component: f32) -> Vec<f32> {
    let colour = |k: usize| [k as f32 / 256.0, -(k as f32) / 256.0, 0.25];
    let mut palette: Vec<f32> = (0..job.s * job.c).flat_map(colour).collect();
    palette.iter_mut().last().into_iter().for_each(|x| *x = component);
    palette
}

fn hints(job: &Job) -> Vec<u32> {
    (0..job.t).map(|i| (i % (job.s + 1)) as u32).collect()
}

fn found(n: usize) -> Vec<f32> {
    vec![f32::from_bits(FOUND); n]
}

fn run(list: &mut List) -> Read<()> {
    let mut job = job(list)?;
    job.n = list.number(MOST_SAMPLES)?;
    let each = job.counts.len() / job.t;
    job.samples = (0..job.n).flat_map(|j| [(j % job.t) as u32, (j / job.t % each) as u32]).collect();
    let (seed, places) = (list.double()?, 3 * job.s * job.c);
    let mut memory = Memory {
        order: vec![FOUND; job.n],
        hints: hints(&job),
        palette: found(places),
        least: found(places),
        record: [FOUND.into(); 7],
    };
    for _ in 0..list.word()? {
        call(list, &mut job, seed, &mut memory)?;
    }
    Ok(())
}

fn call(list: &mut List, job: &mut Job, seed: u64, memory: &mut Memory) -> Read<()> {
    match list.word()? {
        6 => job.size = list.word()? as usize,
        asked @ (4 | 5) => advance_damaged(list, job, memory.clone(), asked)?,
        asked => call_of_run(list, job, seed, memory, asked)?,
    }
    Ok(())
}

fn call_of_run(list: &mut List, job: &Job, seed: u64, memory: &mut Memory, asked: u32) -> Read<()> {
    // a result alone is lent room
    let mut room = found(if asked == 3 { memory.palette.len() } else { 0 });
    let lent = held(memory, &room);
    let told = match asked {
        0 => shipped::start(job, memory, seed),
        1 => shipped::advance(job, memory, list.double()?),
        2 => shipped::hand_in(job, memory, &palette(job, list.float()?)),
        3 => shipped::result(job, memory, &mut room),
        _ => return list.refuse(format!("there is no call {asked}")),
    };
    let (number, index, draws) = shipped::said(told);
    same_outcome(list, (number, index), &[draws], &lent, &held(memory, &room))
}

fn advance_damaged(list: &mut List, job: &Job, mut memory: Memory, asked: u32) -> Read<()> {
    if asked == 4 {
        damage_palettes(list, &mut memory)?;
    } else {
        memory.record[6] = list.double()?;
    }
    let lent = held(&memory, &[]);
    let (number, index, draws) = shipped::said(shipped::advance(job, &mut memory, u64::MAX));
    same_outcome(list, (number, index), &[draws], &lent, &held(&memory, &[]))
}

fn damage_palettes(list: &mut List, memory: &mut Memory) -> Read<()> {
    let (place, component) = (list.word()? as usize, list.float()?);
    match memory.palette.iter_mut().chain(&mut memory.least).nth(place) {
        Some(x) => *x = component,
        None => return list.refuse(format!("there is no place {place}")),
    }
    Ok(())
}

fn held(memory: &Memory, room: &[f32]) -> Vec<u64> {
    [memory.record.to_vec(), words(&[&memory.order, &memory.hints], &[&memory.palette, &memory.least, room])].concat()
}

fn fits(list: &mut List) -> Read<()> {
    let job = job(list)?;
    let (palette, hints) = (palette(&job, list.float()?), hints(&job));
    let lent = words(&[&hints], &[]);

    let (mut assigned, mut out) = (hints.clone(), vec![FOUND; job.t]);
    let (number, index, draws) = shipped::said(shipped::assign(&job, &palette, &mut assigned, &mut out));
    let room = words(&[&hints, &vec![FOUND; job.t]], &[]);
    same_outcome(list, (number, index), &[draws], &room, &words(&[&assigned, &out], &[]))?;

    let mut left = hints.clone();
    let (answer, index, dist) = calls::single_fit(&job, &palette, &mut left);
    same_outcome(list, answer, &[index as u64, dist.to_bits().into()], &lent, &words(&[&left], &[]))?;

    let mut left = hints.clone();
    let (answer, index, dists) = calls::best_two(&job, &palette, &mut left);
    let [dist, second] = dists.map(|x| x.to_bits().into());
    same_outcome(list, answer, &[index as u64, dist, second], &lent, &words(&[&left], &[]))?;

    let mut dst = vec![FOUND as u8; MOST_BYTES];
    let lent = bytes(&dst);
    let (answer, size) = calls::sheet_write(&job, &palette, &mut dst);
    same_outcome(list, answer, &[size as u64], &lent, &bytes(&dst))
}

fn bytes(all: &[u8]) -> Vec<u64> {
    all.iter().map(|&byte| byte.into()).collect()
}

fn sheet(list: &mut List) -> Read<()> {
    let (told, many) = (list.word()? as usize, list.number(MOST_BYTES)?);
    let all = list.words(many.div_ceil(4))?;
    let sheet: Vec<u8> = all.into_iter().flat_map(u32::to_be_bytes).take(many).collect();
    let [numbers, entries, counts] = ROOM;
    let mut job = Job { size: told, tiles: vec![FOUND; entries], counts: vec![FOUND; counts], ..Job::default() };
    job.colours = found(3 * counts);
    let mut palette = found(numbers);
    let lent = words(&[&job.tiles, &job.counts], &[&job.colours, &palette]);
    let answer = calls::sheet_read(&sheet, &mut job, &mut palette);
    let told = [job.s as u64, job.c as u64, job.t as u64, job.weight.to_bits().into()];
    let left = words(&[&job.tiles, &job.counts], &[&job.colours, &palette]);
    same_outcome(list, answer, &told, &lent, &left)
}

fn grouping(list: &mut List) -> Read<()> {
    let (size, p) = (list.word()? as usize, list.number(MOST_PIXELS)?);
    let (mut pixels, mut oklab) = (Vec::new(), Vec::new());
    for _ in 0..p {
        pixels.extend(list.word()?.to_be_bytes());
        oklab.extend(list.colour()?);
    }
    let mut room =
        Entries { bytes: vec![FOUND as u8; 4 * p], oklab: found(3 * p), counts: vec![FOUND; p], index: vec![FOUND; p] };
    let all = |room: &Entries| [bytes(&room.bytes), words(&[&room.counts, &room.index], &[&room.oklab])].concat();
    let lent = all(&room);
    let (answer, entries) = calls::group(size, &pixels, &oklab, &mut room);
    same_outcome(list, answer, &[entries as u64], &lent, &all(&room))
}
