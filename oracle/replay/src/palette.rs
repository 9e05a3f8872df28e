//! Fits, best twos, errors, nudges, nearest colours. A case's first word says what it has; values are f32 patterns, a colour is three.
//! 1: what is asked (1 a best fit, 2 the best two, 3 the mean squared error) and of which tile; the tile size, S, C, and of these n
//!    subpalettes of h colours present, T tiles, N tile colours, the weight; the tile table, N counts, N colours, the palette's S·C
//!    colours, T hints. Then the answer, an index and two values, 0 where it has none, and the hints left.
//! 2: alpha, a colour, a target, and the colour nudged. 3: n, n colours, the weight, a target; its nearest, and its nearest two.

use crate::list::{List, Read};
use foreign::shipped::{self, Job};
use foreign::{lend, ours, probe_best_fit, probe_best_two, probe_mse, probe_nudge};

const MOST_SUBPALETTES: usize = 8;
const MOST_COLOURS_EACH: usize = 8;
const MOST_TILES: usize = 4;
const MOST_TILE_COLOURS: usize = 512;
const MOST_COLOURS: usize = 16;

pub fn case(list: &mut List) -> Read<()> {
    match list.word()? {
        1 => job(list),
        2 => nudge(list),
        3 => nearest(list),
        kind => list.refuse(format!("there is no case {kind}")),
    }
}

fn nudge(list: &mut List) -> Read<()> {
    let (alpha, mut colour, [l, a, b]) = (list.float()?, list.colour()?, list.colour()?);
    unsafe { lend!(probe_nudge(mut colour, 0, l, a, b, alpha)) };
    list.same_floats(&colour)
}

fn nearest(list: &mut List) -> Read<()> {
    let n = list.number(MOST_COLOURS)?;
    let (colours, weight, target) = (list.colours(n)?, list.float()?, list.colour()?);
    let (index, dist) = ours::view_nearest(&colours, target, weight);
    list.same_index(index)?;
    list.same_float(dist)?;
    let (index, dist, second) = ours::view_nearest_two(&colours, target, weight).known();
    list.same_index(index)?;
    list.same_floats(&[dist, second])
}

/// A job, its palette with the subpalettes and colours of each that are present, and its hints.
struct Shown {
    job: Job,
    present: usize,
    have: usize,
    palette: Vec<f32>,
    hints: Vec<u32>,
}

/// An index and two values, of which those that the answer has not are 0.
type Answer = (usize, f32, f32);

fn job(list: &mut List) -> Read<()> {
    let (asked, tile) = (list.word()?, list.word()? as usize);
    let mut shown = Shown::read(list)?;
    if tile >= shown.job.t || !shown.is_shown() || !shown.is_accepted() {
        return list.refuse("no answer is asked of such a job");
    }
    let (index, value, second) = match asked {
        1 if !shown.job.tile(tile).1.is_empty() => shown.best_fit(tile),
        2 => shown.best_two(tile),
        3 => shown.error(),
        _ => return list.refuse(format!("{asked} is not asked of such a tile")),
    };
    list.same_index(index)?;
    list.same_floats(&[value, second])?;
    list.same_indexes(&shown.hints)
}

impl Shown {
    fn read(list: &mut List) -> Read<Shown> {
        let (size, s, c) = (list.word()? as usize, list.number(MOST_SUBPALETTES)?, list.number(MOST_COLOURS_EACH)?);
        let (present, have) = (list.number(s)?, list.number(c)?);
        let (t, n) = (list.number(MOST_TILES)?, list.number(MOST_TILE_COLOURS)?);
        let (weight, tiles) = (list.float()?, list.words(2 * t)?);
        let (counts, colours) = (list.words(n)?, list.floats(3 * n)?);
        let job = Job { size, s, c, t, weight, tiles, colours, counts, ..Job::default() };
        Ok(Shown { job, present, have, palette: list.floats(3 * s * c)?, hints: list.words(t)? })
    }

    /// A subpalette and a colour are present; that there are no more than room, the reading saw.
    fn is_shown(&self) -> bool {
        self.present > 0 && self.have > 0
    }

    /// The forwarders ask for an accepted job: `assign`, which checks all that it is lent, says whether this is one.
    fn is_accepted(&self) -> bool {
        shipped::assign(&self.job, &self.palette, &mut self.hints.clone(), &mut vec![0; self.job.t]) == 0
    }

    /// Of a tile that is not empty, from its hint, which then names the best.
    fn best_fit(&mut self, i: usize) -> Answer {
        let Shown { job, present, have, palette, hints } = self;
        let ((colours, counts), mut dist) = (job.tile(i), 0.0);
        let index = unsafe {
            lend!(probe_best_fit(
                ref palette, job.c, *have, *present, ref colours, ref counts, job.weight, mut hints, i, &mut dist
            ))
        };
        (index, dist, 0.0)
    }

    /// Of a tile that may be empty.
    fn best_two(&mut self, i: usize) -> Answer {
        let Shown { job, present, have, palette, hints } = self;
        let ((colours, counts), mut two) = (job.tile(i), ours::Two::NONE);
        two.index = unsafe {
            lend!(probe_best_two(
                ref palette, job.c, *have, *present, ref colours, ref counts, job.weight, mut hints, i,
                &mut two.dist, &mut two.next, &mut two.second
            ))
        };
        two.known()
    }

    /// Over all tiles; the hints then name the best of each that is not empty.
    fn error(&mut self) -> Answer {
        let Shown { job, present, have, palette, hints } = self;
        let error = unsafe { lend!(probe_mse(..job, ref palette, *present, *have, mut hints)) };
        (0, error, 0.0)
    }
}
