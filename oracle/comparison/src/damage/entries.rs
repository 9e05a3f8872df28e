//! Colours damaged at known places in calls that are right otherwise: what is said of one follows from its place alone.

use terms::rng::Rng;

use crate::call::{Ask, Call};
use crate::lent::nans;
use crate::table::{Given, Refusal};

/// Colours that a call looks at.
pub struct Part<'a> {
    numbers: &'a mut [f32],
    /// What is said of its first colour; the indexes of the others go on from there.
    first: Refusal,
    /// The largest magnitude that is accepted.
    pub limit: f32,
    /// Colours with which a palette or a tile begins or ends.
    ends: Vec<usize>,
}

/// Of a call with a palette among its job's colours: tile colours are counted on from it.
pub fn of_plain<'a>(given: &'a mut Given, palette: &'a mut [f32]) -> Vec<Part<'a>> {
    let after = given.s * given.c;
    let mut parts = vec![Part::palette(palette, 7, 0, 2.0), Part::tiles(given, after)];
    parts.retain(|part| part.colours() > 0);
    parts
}

/// Of a call of a run that belongs to its moment: the second palette's colours are counted on from the first's.
pub fn of_run<'a>(call: &'a mut Call, ask: &'a mut Ask) -> Vec<Part<'a>> {
    let (stage, after) = (call.stage(), call.given.s * call.given.c);
    let mut parts = vec![Part::tiles(&mut call.given, 0)];
    if !matches!(ask, Ask::Start(_)) {
        parts.push(Part::palette(&mut call.memory.palette, 16, 0, 4.0));
        if stage == 2 {
            parts.push(Part::palette(&mut call.memory.least, 16, after, 4.0));
        }
    }
    if let Ask::HandIn(colours) = ask {
        parts.push(Part::palette(colours, 17, 0, 2.0));
    }
    parts
}

impl<'a> Part<'a> {
    fn palette(numbers: &'a mut [f32], number: u32, index: usize, limit: f32) -> Self {
        let last = numbers.len() / 3 - 1;
        Part { numbers, first: Refusal { number, index }, limit, ends: vec![0, last] }
    }

    fn tiles(given: &'a mut Given, index: usize) -> Self {
        let full = given.tiles.as_chunks().0.iter().filter(|[_, n]| *n > 0);
        let ends = full.flat_map(|&[first, n]| [first as usize, (first + n - 1) as usize]).collect();
        Part { numbers: &mut given.colours, first: Refusal { number: 7, index }, limit: 2.0, ends }
    }

    pub fn colours(&self) -> usize {
        self.numbers.len() / 3
    }

    /// What is said of a colour that is bad.
    pub fn said(&self, colour: usize) -> Refusal {
        Refusal { index: self.first.index + colour, ..self.first }
    }

    pub fn put(&mut self, colour: usize, component: usize, x: f32) {
        self.numbers[3 * colour + component] = x;
    }

    /// The first and the last of a palette or a tile as often as all others together.
    fn any_colour(&self, rng: &mut Rng) -> usize {
        if rng.once_in(2) { rng.pick(&self.ends) } else { rng.below(self.colours()) }
    }

    /// A few components become the limit itself, which is accepted.
    fn reach_limit(&mut self, rng: &mut Rng) {
        for _ in 0..rng.below(4) {
            self.numbers[rng.below(self.numbers.len())] = rng.pick(&[self.limit, -self.limit]);
        }
    }
}

/// So many different colours damaged, one component of each. Gives what is said of each.
pub fn damage(rng: &mut Rng, parts: &mut [Part], many: usize) -> Vec<Refusal> {
    parts.iter_mut().for_each(|part| part.reach_limit(rng));
    // from some part on, so that each of them is as often the first that is damaged
    let from = rng.below(parts.len());
    let parts = &mut parts[from..];
    let there = parts.iter().map(Part::colours).sum();
    let mut damaged = Vec::new();
    while damaged.len() < many.min(there) {
        let part = &mut parts[rng.below(parts.len())];
        let colour = part.any_colour(rng);
        if !damaged.contains(&part.said(colour)) {
            damaged.push(part.said(colour));
            part.put(colour, rng.below(3), bad(rng, part.limit));
        }
    }
    damaged
}

/// Just past the limit, far past it, or no number.
fn bad(rng: &mut Rng, limit: f32) -> f32 {
    let nan = rng.pick(&nans(64));
    let size = rng.pick(&[limit.next_up(), limit.next_up(), 2.0 * limit, f32::MAX, f32::INFINITY, nan, nan]);
    if rng.once_in(2) { -size } else { size }
}
