//! The rules of docs/SCOPE.md for a run's record, and the number that a run's call gets, with its index.

use terms::sizes_word;

use crate::call::{Ask, Call};
use crate::table::{self, Given, Refusal, unless};

/// Draws in a round of a stage, and rounds in it.
pub fn round(given: &Given, n: usize, stage: u64) -> (u64, u64) {
    let b = n as u64 / 10;
    match stage {
        0 => (b, given.s as u64 - 1),
        1 => (b, given.c as u64 - 1),
        2 => (b, 10),
        4 => (10 * b, 1),
        _ => (0, 0),
    }
}

/// The draws of all stages before one.
pub fn before(given: &Given, n: usize, stage: u64) -> u64 {
    (0..stage).map(|past| round(given, n, past)).map(|(size, rounds)| size * rounds).sum()
}

/// Stages in which a run waits for its host.
pub fn waits(stage: u64) -> bool {
    matches!(stage, 3 | 5 | 6 | 7)
}

/// The rules of the record's first six words, of a job that is accepted.
fn passes(given: &Given, n: usize, record: &[u64]) -> bool {
    let &[_, stage, rounds, left, made, error, _] = record else { return false };
    if stage > 7 {
        return false;
    }
    let (size, most) = round(given, n, stage);
    let placed = if waits(stage) { rounds == 0 && left == 0 } else { rounds < most && (1..=size).contains(&left) };
    let finite = error <= u64::from(f32::MAX.to_bits());
    placed
        && made == before(given, n, stage) + rounds * size + (size - left)
        && if stage == 2 { finite } else { error == 0 }
}

/// What the scope says of a call: a start's tests end with the job's.
pub fn refusal(call: &Call, ask: &Ask) -> Refusal {
    match (of_job(call, ask), ask) {
        (Refusal { number: 0, .. }, Ask::Advance(_) | Ask::HandIn(_) | Ask::Result(_)) => of_memory(call, ask),
        (refusal, _) => refusal,
    }
}

/// By the tests of the job and of all lengths.
fn of_job(call: &Call, ask: &Ask) -> Refusal {
    let (given, n, memory) = (&call.given, call.n, &call.memory);
    let room = |len: usize| len == 3 * given.s * given.c;
    let there = |s: &[u32]| s[0] < given.t as u32 && s[1] < given.tiles[2 * s[0] as usize + 1];
    table::first(&[
        (2, &|| unless(table::sizes(given) && n <= 16_384)),
        (3, &|| unless(table::lengths(given) && call.samples.len() == 2 * n && memory.order.len() == n)),
        (3, &|| unless(memory.hints.len() == given.t && room(memory.palette.len()) && room(memory.least.len()))),
        (3, &|| unless(memory.record.len() == 7 && ask.colours().is_none_or(|colours| room(colours.len())))),
        (1, &|| unless(n != 0)),
        (4, &|| unless(table::weight(given.weight))),
        (5, &|| unless(table::table(given))),
        (6, &|| unless(table::counts(given))),
        (7, &|| table::bad_colour(&[&given.colours], 2.0)),
        (8, &|| unless(call.samples.chunks(2).all(there))),
    ])
}

/// By the tests of what a run holds and is handed, of a job that is accepted.
fn of_memory(call: &Call, ask: &Ask) -> Refusal {
    let (n, memory, stage) = (call.n, &call.memory, call.stage());
    // the second palette is looked at in stage 2 alone
    let second = if stage == 2 { &memory.least[..] } else { &[] };
    table::first(&[
        (20, &|| unless(memory.record[6] == sizes_word(call.sizes()))),
        (10, &|| unless(passes(&call.given, n, &memory.record))),
        (16, &|| table::bad_colour(&[&memory.palette, second], 4.0)),
        (9, &|| unless(memory.order.iter().all(|&entry| (entry as usize) < n))),
        (11, &|| unless(belongs(ask, stage))),
        (17, &|| match ask {
            Ask::HandIn(colours) => table::bad_colour(&[colours], 2.0),
            _ => None,
        }),
    ])
}

/// The call is one for this stage.
fn belongs(ask: &Ask, stage: u64) -> bool {
    match ask {
        Ask::Start(_) => true,
        Ask::Advance(_) => !waits(stage),
        Ask::HandIn(_) => matches!(stage, 3 | 5 | 6),
        Ask::Result(_) => stage == 7,
    }
}
