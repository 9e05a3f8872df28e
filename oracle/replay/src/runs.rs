//! Whole runs by the calls of the library that ships; a case is a run. Numbers of 64 bits are two words, values f32 patterns.
//! A run: the tile size, S, C, T tiles, m tile colours, n samples, p numbers of a palette, the weight, the seed, the number of calls; the
//! tile table, m counts, m colours, n samples of two words, T hints. Then the state that the start leaves; then each call: 0, an
//! allotment and the draws made, or 1 and p numbers to hand in; and the state that it leaves.
//! A state is the record's seven numbers of 64 bits, n order entries, T hints, and both palettes.

use crate::list::{List, Read};
use foreign::shipped::{self, Job, Memory};

const MOST_TILES: usize = 64;
const MOST_TILE_COLOURS: usize = 1024;
const MOST_SAMPLES: usize = 64;
const MOST_NUMBERS: usize = 48;

/// The start, and so many calls one after the other; after each the state that it leaves.
pub fn case(list: &mut List) -> Read<()> {
    let [size, s, c] = [list.word()? as usize, list.word()? as usize, list.word()? as usize];
    let (t, m) = (list.number(MOST_TILES)?, list.number(MOST_TILE_COLOURS)?);
    let (n, p) = (list.number(MOST_SAMPLES)?, list.number(MOST_NUMBERS)?);
    let (weight, seed, calls) = (list.float()?, list.double()?, list.word()?);
    let (tiles, counts) = (list.words(2 * t)?, list.words(m)?);
    let (colours, samples) = (list.floats(3 * m)?, list.words(2 * n)?);
    let job = Job { size, s, c, t, n, weight, tiles, colours, counts, samples };
    let hints = list.words(t)?;
    let mut memory = Memory { order: vec![0; n], hints, palette: vec![0.0; p], least: vec![0.0; p], record: [0; 7] };
    // the number is 0, and there are no draws
    list.compare(shipped::start(&job, &mut memory, seed) == 0);
    same_state(list, &memory)?;
    for _ in 0..calls {
        match list.word()? {
            0 => advance(list, &job, &mut memory)?,
            1 => hand_in(list, &job, &mut memory)?,
            kind => return list.refuse(format!("there is no call {kind}")),
        }
        same_state(list, &memory)?;
    }
    Ok(())
}

fn same_state(list: &mut List, memory: &Memory) -> Read<()> {
    list.same_doubles(&memory.record)?;
    list.same_indexes(&memory.order)?;
    list.same_indexes(&memory.hints)?;
    list.same_floats(&memory.palette)?;
    list.same_floats(&memory.least)
}

/// By the list's allotment: the number is 0, and the draws are the list's.
fn advance(list: &mut List, job: &Job, memory: &mut Memory) -> Read<()> {
    let told = shipped::advance(job, memory, list.double()?);
    list.compare(told & 255 == 0);
    list.same_double(told >> 8)
}

/// Of the list's colours: the number is 0, and there are no draws.
fn hand_in(list: &mut List, job: &Job, memory: &mut Memory) -> Read<()> {
    let reduced = list.floats(memory.palette.len())?;
    list.compare(shipped::hand_in(job, memory, &reduced) == 0);
    Ok(())
}
