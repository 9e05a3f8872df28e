//! The run of docs/SCOPE.md, stage by stage, over the memory lent to its calls.

use terms::{Colour, Tile, sizes_word};

use super::fits::{self, Present};
use super::{draws, record, stages};
use crate::call::{Ask, Call, Memory, Outcome};
use crate::table;

/// What the scope says of a call: its number and index, its draws, and all lent memory after it.
pub fn outcome(call: &Call, ask: &Ask) -> Outcome {
    let refusal = record::refusal(call, ask);
    let mut right = Outcome::unchanged(refusal, call, ask);
    if refusal.number != 0 {
        return right;
    }
    let mut run = Run::of(call);
    match ask {
        Ask::Start(seed) => run.start(*seed),
        Ask::Advance(allotment) => right.draws = run.advance(*allotment),
        Ask::HandIn(reduced) => run.hand_in(reduced),
        Ask::Result(_) => right.colours = call.memory.palette.clone(),
    }
    right.memory = run.memory();
    right
}

/// A job that is accepted, and the memory lent, by the names that the scope gives to the record's words.
struct Run<'a> {
    call: &'a Call,
    tiles: Vec<Tile>,
    order: Vec<u32>,
    hints: Vec<u32>,
    palette: Vec<Colour>,
    least: Vec<Colour>,
    generator: u64,
    stage: u64,
    rounds: u64,
    left: u64,
    made: u64,
    error: u64,
    sizes: u64,
}

impl<'a> Run<'a> {
    fn of(call: &'a Call) -> Self {
        let memory = call.memory.clone();
        let word = |k: usize| memory.record[k];
        Run {
            call,
            tiles: call.given.tiles(),
            palette: table::colours(&memory.palette),
            least: table::colours(&memory.least),
            generator: word(0),
            stage: word(1),
            rounds: word(2),
            left: word(3),
            made: word(4),
            error: word(5),
            sizes: word(6),
            order: memory.order,
            hints: memory.hints,
        }
    }

    fn memory(self) -> Memory {
        Memory {
            order: self.order,
            hints: self.hints,
            palette: self.palette.into_flattened(),
            least: self.least.into_flattened(),
            record: vec![self.generator, self.stage, self.rounds, self.left, self.made, self.error, self.sizes],
        }
    }

    fn start(&mut self, seed: u64) {
        (self.generator, self.made, self.error, self.sizes) = (seed, 0, 0, sizes_word(self.call.sizes()));
        self.order = draws::first_order(self.call.n, &mut self.generator);
        self.palette.fill([0.0; 3]);
        self.least.fill([0.0; 3]);
        self.palette[0] = self.mean();
        self.enter(0);
    }

    /// Of the samples in order.
    fn mean(&self) -> Colour {
        let mut sum = [0f32; 3];
        for i in 0..self.call.n {
            let (tile, place) = self.call.sample(i);
            let colour = self.tiles[tile].colours[place];
            (0..3).for_each(|k| sum[k] += colour[k]);
        }
        sum.map(|x| x / self.call.n as f32)
    }

    fn advance(&mut self, allotment: u64) -> u64 {
        let mut done = 0;
        while done < allotment && !record::waits(self.stage) {
            self.draw();
            done += 1;
        }
        done
    }

    fn hand_in(&mut self, reduced: &[f32]) {
        self.palette = table::colours(reduced);
        self.enter(self.stage + 1);
    }

    /// All that is due before the first draw of a stage.
    fn enter(&mut self, stage: u64) {
        (self.stage, self.rounds, self.left) = (stage, 0, 0);
        match stage {
            2 => self.keep(),
            3 => {
                self.palette = std::mem::replace(&mut self.least, vec![[0.0; 3]; self.palette.len()]);
                self.error = 0;
            }
            6 => (0..4).for_each(|_| self.refine()),
            _ => {}
        }
        self.open(0);
    }

    /// Opens the next round, or enters the next stage where none is left; `split` is what seeding chose.
    fn open(&mut self, split: usize) {
        if record::waits(self.stage) {
            return;
        }
        let (size, rounds) = record::round(&self.call.given, self.call.n, self.stage);
        if self.rounds == rounds {
            return self.enter(self.stage + 1);
        }
        match self.stage {
            0 => self.palette[(self.rounds as usize + 1) * self.call.given.c] = self.palette[split * self.call.given.c],
            1 => self.grow(),
            2 => self.replace(),
            _ => {}
        }
        self.left = size;
        if size == 0 {
            self.close();
        }
    }

    /// Closes a round whose draws are made.
    fn close(&mut self) {
        let split = if self.stage == 0 {
            let (present, tiles, hints) = self.parts(self.rounds as usize + 2, 1);
            stages::worst(present, tiles, hints)
        } else {
            0
        };
        if self.stage == 2 {
            self.judge();
        }
        self.rounds += 1;
        self.open(split);
    }

    fn draw(&mut self) {
        let given = &self.call.given;
        let drawn = draws::sample(&mut self.order, &mut self.generator, self.made);
        let (tile, place) = self.call.sample(drawn);
        let (subs, have) = match self.stage {
            0 => (self.rounds as usize + 2, 1),
            1 => (given.s, self.rounds as usize + 2),
            _ => (given.s, given.c),
        };
        let (present, tiles, hints) = self.parts(subs, have);
        let (winner, _) = present.fit(&tiles[tile]);
        hints[tile] = winner as u32;
        let target = tiles[tile].colours[place];
        let (near, _) = fits::nearest(present.sub(winner), target, present.weight);
        self.nudge(winner * given.c + near, target);
        self.made += 1;
        self.left -= 1;
        if self.left == 0 {
            self.close();
        }
    }

    fn nudge(&mut self, place: usize, target: Colour) {
        let alpha = if self.stage == 4 { 0.5f32 } else { 0.3 };
        let colour = &mut self.palette[place];
        (0..3).for_each(|k| colour[k] = (1.0 - alpha) * colour[k] + alpha * target[k]);
    }

    /// What is present, beside the tiles and the hints.
    fn parts(&mut self, subs: usize, have: usize) -> (Present<'_>, &[Tile], &mut [u32]) {
        let given = &self.call.given;
        let present = Present { palette: &self.palette, room: given.c, subs, have, weight: given.weight };
        (present, &self.tiles, &mut self.hints)
    }

    fn whole(&mut self) -> (Present<'_>, &[Tile], &mut [u32]) {
        self.parts(self.call.given.s, self.call.given.c)
    }

    fn grow(&mut self) {
        let (c, have) = (self.call.given.c, self.rounds as usize + 1);
        let (present, tiles, hints) = self.parts(self.call.given.s, have);
        for (i, from) in stages::to_grow(present, tiles, hints).into_iter().enumerate() {
            self.palette[i * c + have] = self.palette[i * c + from];
        }
    }

    fn replace(&mut self) {
        let c = self.call.given.c;
        let (present, tiles, hints) = self.whole();
        let (colours, sub) = stages::to_replace(present, tiles, hints);
        let before = self.palette.clone();
        for (i, copy) in colours.into_iter().enumerate() {
            if let Some((from, to)) = copy {
                self.palette[i * c + to] = before[i * c + from];
            }
        }
        if let Some((from, to)) = sub {
            self.palette.copy_within(from * c..(from + 1) * c, to * c);
        }
    }

    fn refine(&mut self) {
        let (present, tiles, hints) = self.whole();
        self.palette = stages::refined(present, tiles, hints);
    }

    /// The palette becomes the least one.
    fn keep(&mut self) {
        let (present, tiles, hints) = self.whole();
        self.error = u64::from(stages::mse(present, tiles, hints).to_bits());
        self.least = self.palette.clone();
    }

    /// Keeps the palette where its error is below the least.
    fn judge(&mut self) {
        let (present, tiles, hints) = self.whole();
        let error = stages::mse(present, tiles, hints);
        if error < f32::from_bits(self.error as u32) {
            self.error = u64::from(error.to_bits());
            self.least = self.palette.clone();
        }
    }
}
