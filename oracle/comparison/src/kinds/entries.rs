//! Calls that are right but for one or two colours, through every call that names one: the number and the index that follow from the
//! places beside those of the reading, beside which our answer and all lent memory are.

use terms::rng::Rng;

use super::{Kind, SIZES, calls, kind, runs, sheets};
use crate::call::{Ask, Call};
use crate::damage::entries::{self, Part};
use crate::damage::runs as damage;
use crate::table::Refusal;
use crate::tally::Tally;

pub const KINDS: &[Kind] = &[kind("damaged entries", 9_000, 108_000, damaged).bringing(SIZES)];

/// A call that has a palette among its job's colours.
pub struct Plain {
    pub name: &'static str,
    /// Gives what the reading says of it.
    pub compare: fn(&calls::Call, &mut Tally) -> Refusal,
}

/// The first two take one tile.
pub const PLAIN: [Plain; 5] = [
    Plain { name: "single fit", compare: calls::fitted },
    Plain { name: "best_two", compare: calls::paired },
    Plain { name: "assign", compare: calls::assigned },
    Plain { name: "writer", compare: sheets::job_written },
    Plain { name: "reader", compare: sheets::job_read },
];

/// A call that is right, to be damaged.
#[derive(Clone)]
pub enum Good {
    Run(Call, Ask),
    Plain(calls::Call, &'static Plain),
}

impl Good {
    /// One call after the other: starts, three times what belongs to a stage, those without samples.
    fn any(rng: &mut Rng, case: u64) -> Self {
        match case as usize % 9 {
            way @ 0..4 => Good::of_run(rng, way == 0),
            way => {
                let t = if way < 6 { 1 } else { rng.among(1, 6) };
                Good::Plain(calls::Call::good(rng, t), &PLAIN[way - 4])
            }
        }
    }

    /// In any stage, a start or the call that belongs to it.
    fn of_run(rng: &mut Rng, starts: bool) -> Self {
        let call = damage::good(rng);
        let [start, advance, hand_in, result] = damage::asks(rng, &call);
        match call.stage() {
            // it finds nothing of use in its memory
            _ if starts => Good::Run(call.without_numbers(), start),
            3 | 5 | 6 => Good::Run(call, hand_in),
            7 => Good::Run(call, result),
            _ => Good::Run(call, advance),
        }
    }

    pub fn name(&self) -> &'static str {
        match self {
            Good::Run(_, ask) => ask.name(),
            Good::Plain(_, plain) => plain.name,
        }
    }

    pub fn parts(&mut self) -> Vec<Part<'_>> {
        match self {
            Good::Run(call, ask) => entries::of_run(call, ask),
            Good::Plain(call, _) => entries::of_plain(&mut call.given, &mut call.palette),
        }
    }

    /// Our answer beside the reading's, of which it gives the number and the index.
    pub fn compared(&self, tally: &mut Tally) -> Refusal {
        match self {
            Good::Run(call, ask) => runs::asked(call, ask, tally),
            Good::Plain(call, plain) => (plain.compare)(call, tally),
        }
    }
}

fn damaged(rng: &mut Rng, case: u64, tally: &mut Tally) {
    let mut call = Good::any(rng, case);
    let many = rng.among(1, 2);
    let places = entries::damage(rng, &mut call.parts(), many);
    let first = places.iter().copied().min().unwrap_or_default();
    tally.add(counted(first.number, places.len()), 1);
    let read = call.compared(tally);
    tally.same(read, first, || format!("{}, damaged at {places:x?}: the number and index read here", call.name()));
}

/// What is counted of a call by its number and its damaged colours.
fn counted(number: u32, colours: usize) -> &'static str {
    match (number, colours) {
        (7, 1) => "7 for one colour",
        (7, _) => "7 for the first of two",
        (16, 1) => "16 for one colour",
        (16, _) => "16 for the first of two",
        (_, 1) => "17 for one colour",
        _ => "17 for the first of two",
    }
}
