//! Runs the cases of a kind, in as many threads as are asked for. A case is made from the seed and its own number alone, so one
//! that differs can be made again.

use std::io::{IsTerminal, Write, stderr};
use std::panic::{AssertUnwindSafe, catch_unwind};
use std::sync::atomic::{AtomicU64, Ordering};

use terms::rng::Rng;

use crate::kinds::Kind;
use crate::tally::Tally;

pub struct Asked {
    pub seed: u64,
    pub scale: u64,
    /// So many cases of each kind.
    pub count: Option<u64>,
    /// As many cases as docs/COMPARISON.md reports.
    pub figures: bool,
    /// One case alone, to repeat a difference.
    pub case: Option<u64>,
    pub threads: usize,
}

impl Asked {
    fn cases(&self, kind: &Kind) -> u64 {
        let some = if self.figures { kind.figures } else { kind.cases * self.scale };
        if kind.whole { kind.cases } else { self.count.unwrap_or(some) }
    }
}

pub fn compare(kind: &Kind, asked: &Asked) -> Tally {
    let cases = asked.cases(kind);
    let (first, end) = asked.case.map_or((0, cases), |case| (case, case + 1));
    let next = AtomicU64::new(first);
    let work = || {
        let mut tally = Tally::default();
        loop {
            let case = next.fetch_add(1, Ordering::Relaxed);
            if case >= end {
                return tally;
            }
            progress(kind.name, case, cases);
            one(kind, asked.seed, case, &mut tally);
        }
    };
    let mut tally = Tally::default();
    std::thread::scope(|scope| {
        let others: Vec<_> = (0..asked.threads).map(|_| scope.spawn(work)).collect();
        others.into_iter().for_each(|other| tally.merge(other.join().unwrap()));
    });
    clear();
    if end - first >= kind.cases {
        brought(kind, &mut tally);
    }
    tally
}

/// Enough cases bring whatever the kind has to.
fn brought(kind: &Kind, tally: &mut Tally) {
    for name in kind.brings {
        let counted = tally.counts.get(name).is_some_and(|&number| number > 0);
        tally.same(counted, true, || format!("some of what is counted as '{name}'"));
    }
}

/// One case; one that panics differs.
fn one(kind: &Kind, seed: u64, case: u64, tally: &mut Tally) {
    tally.case = case;
    let mut rng = Rng::new(seed.wrapping_mul(0x1_0000_0001) ^ case << 20);
    let ended = catch_unwind(AssertUnwindSafe(|| (kind.compare)(&mut rng, case, tally)));
    if ended.is_err() {
        tally.same(false, true, || "the case ends without a panic".to_string());
    }
}

fn progress(name: &str, case: u64, cases: u64) {
    if case.is_multiple_of(64) && stderr().is_terminal() {
        eprint!("\r\x1b[K{name} {case}/{cases}");
        let _ = stderr().flush();
    }
}

fn clear() {
    if stderr().is_terminal() {
        eprint!("\r\x1b[K");
    }
}
