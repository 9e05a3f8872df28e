//! A run: started, advanced, stopped for reductions, saved and taken up again.

use crate::ffi;
use crate::job::{Colour, Job, MOST_TILES};
use crate::memory::Memory;
use crate::refusal::Refusal;

/// Where a run is. Three stages are stops, at which the host hands in reduced colours.
#[derive(Clone, Copy, Debug, PartialEq, Eq, Hash, PartialOrd, Ord)]
pub enum Stage {
    /// 0: subpalettes are added, one a round.
    Seeding,
    /// 1: each subpalette gets one colour more, each round.
    Growing,
    /// 2: the weakest colours and subpalettes are replaced, ten rounds; the palette of least error is kept.
    Replacing,
    /// 3: a stop, before the final draws.
    ReduceTrained,
    /// 4: the final draws.
    FinalDraws,
    /// 5: a stop, before the refinement.
    ReduceDrawn,
    /// 6: a stop, after which the run is finished.
    ReduceRefined,
    /// 7: finished.
    Finished,
}

const STAGES: [Stage; 8] = [
    Stage::Seeding,
    Stage::Growing,
    Stage::Replacing,
    Stage::ReduceTrained,
    Stage::FinalDraws,
    Stage::ReduceDrawn,
    Stage::ReduceRefined,
    Stage::Finished,
];

/// Which call a run waits for.
#[derive(Clone, Copy, Debug, PartialEq, Eq, Hash)]
pub enum Moment {
    /// Draws are to be made: [`Trainer::advance`].
    Draws,
    /// The working colours are to be reduced: [`Trainer::hand_in`].
    Stop,
    /// The run is finished: [`Trainer::result`].
    Finished,
}

impl Stage {
    /// Which call a run waits for at this stage.
    pub fn moment(self) -> Moment {
        match self {
            Stage::Seeding | Stage::Growing | Stage::Replacing | Stage::FinalDraws => Moment::Draws,
            Stage::ReduceTrained | Stage::ReduceDrawn | Stage::ReduceRefined => Moment::Stop,
            Stage::Finished => Moment::Finished,
        }
    }
}

/// What an advance did.
#[derive(Clone, Copy, Debug, PartialEq, Eq)]
pub struct Advanced {
    /// The draws made by this call: the allotment, or fewer where a stop came first.
    pub draws: u64,
    /// What the run waits for now.
    pub moment: Moment,
}

/// A run of a job, with the memory that is lent to each of its calls.
///
/// One trainer is one run. Trainers share nothing, so each may be on a thread of its own. The library allocates nothing;
/// the memory is allocated once, when the run starts.
///
/// ```
/// use dunkafeto::{console, Moment, Tiles, Trainer, SMALL_TILE};
///
/// let mut tiles = Tiles::new(SMALL_TILE);
/// tiles.push([([0.25, 0.0, 0.0], 40), ([0.75, 0.1, 0.0], 24)]);
/// tiles.push([([0.5, 0.0, -0.1], 64)]);
/// let samples = tiles.samples();
/// let job = tiles.job(2, 2, 2.15, &samples, 0);
///
/// let mut trainer = Trainer::start(job)?;
/// while trainer.moment() != Moment::Finished {
///     match trainer.moment() {
///         Moment::Draws => {
///             trainer.advance(100)?;
///             // here a host may show trainer.draws_made(), or keep trainer.save() in a file
///         }
///         _ => {
///             let reduced: Vec<_> = trainer.working().iter().map(|&colour| console::reduced(colour)).collect();
///             trainer.hand_in(&reduced)?;
///         }
///     }
/// }
/// assert_eq!(trainer.draws_made(), job.draws());
/// assert_eq!(trainer.result()?.len(), 4);
/// # Ok::<(), dunkafeto::Refusal>(())
/// ```
#[derive(Clone, Debug)]
pub struct Trainer<'a> {
    job: Job<'a>,
    memory: Memory,
}

impl<'a> Trainer<'a> {
    /// Starts a run with all hints 0. Refused with 1 to 8 where the job is not accepted.
    pub fn start(job: Job<'a>) -> Result<Self, Refusal> {
        let t = if job.tiles.len() > MOST_TILES { 0 } else { job.tiles.len() };
        Self::start_from(job, vec![0; t])
    }

    /// Starts a run with a hint for each tile, any number: the subpalette that is tried first. Hints change how long fits
    /// take, and no result.
    pub fn start_from(job: Job<'a>, hints: Vec<u32>) -> Result<Self, Refusal> {
        let mut memory = Memory::of(&job, hints);
        ffi::start(&job, &mut memory)?;
        Ok(Trainer { job, memory })
    }

    /// Takes up a run from its memory, whoever kept it. The library checks job and memory: 1 to 8, 20 where the record is of a
    /// job of other sizes, 10 for the record, 16 for working colours, 9 for the order.
    ///
    /// **Two jobs of equal sizes are still not told apart**: S, C, T and n are all that the record knows of its job. Compare
    /// what else there is to know, such as a [`checksum`](crate::checksum) of the sheet, before. Not even the tile size is in
    /// it: with the other one the run goes on wherever the job passes there.
    pub fn resume(job: Job<'a>, memory: Memory) -> Result<Self, Refusal> {
        let trainer = Trainer { job, memory };
        // the moment is the last thing that `result` checks, and it writes nothing here
        match trainer.result() {
            Ok(_) | Err(Refusal::Moment) => Ok(trainer),
            Err(refusal) => Err(refusal),
        }
    }

    /// Makes up to `allotment` draws, and all work that is due; fewer draws only where a stop or the finish comes first.
    /// How draws are divided into calls makes no difference to what they leave. At a stop or at the finish it is refused
    /// with 11.
    pub fn advance(&mut self, allotment: u64) -> Result<Advanced, Refusal> {
        let draws = ffi::advance(&self.job, &mut self.memory, allotment)?;
        Ok(Advanced { draws, moment: self.moment() })
    }

    /// Hands in S·C colours as the console shows them, and goes on up to the next draw, stop or finish. Refused with 3 for
    /// another number of colours, 11 elsewhere than at a stop, 17 for a component above 2 in magnitude or not finite.
    pub fn hand_in(&mut self, reduced: &[Colour]) -> Result<Moment, Refusal> {
        ffi::hand_in(&self.job, &mut self.memory, reduced)?;
        Ok(self.moment())
    }

    /// The trained colours, subpalette by subpalette. Before the finish it is refused with 11.
    pub fn result(&self) -> Result<Vec<Colour>, Refusal> {
        let mut colours = vec![[0.0; 3]; self.job.palette_len()];
        ffi::result(&self.job, &self.memory, &mut colours)?;
        Ok(colours)
    }

    /// Goes on to the finish, reducing each working colour by itself at each stop, and gives the trained colours.
    ///
    /// ```
    /// use dunkafeto::{console, Tiles, Trainer, SMALL_TILE};
    ///
    /// let mut tiles = Tiles::new(SMALL_TILE);
    /// tiles.push([([0.25, 0.0, 0.0], 40), ([0.75, 0.1, 0.0], 24)]);
    /// let samples = tiles.samples();
    /// let colours = Trainer::start(tiles.job(1, 2, 2.15, &samples, 0))?.finish(console::reduced)?;
    /// assert_eq!(colours.len(), 2);
    /// # Ok::<(), dunkafeto::Refusal>(())
    /// ```
    pub fn finish(&mut self, mut reduce: impl FnMut(Colour) -> Colour) -> Result<Vec<Colour>, Refusal> {
        loop {
            match self.moment() {
                Moment::Draws => drop(self.advance(u64::MAX)?),
                Moment::Stop => {
                    let reduced: Vec<Colour> = self.working().iter().map(|&colour| reduce(colour)).collect();
                    self.hand_in(&reduced)?;
                }
                Moment::Finished => return self.result(),
            }
        }
    }

    /// The working colours, S·C, subpalette by subpalette. At a stop these are what the host reduces; before stage 2 places
    /// that are not in use yet are zeros.
    pub fn working(&self) -> &[Colour] {
        &self.memory.palette
    }

    /// Where the run is.
    pub fn stage(&self) -> Stage {
        STAGES[self.memory.record[1] as usize] // a record that was accepted has a stage from 0 to 7
    }

    /// Which call the run waits for.
    pub fn moment(&self) -> Moment {
        self.stage().moment()
    }

    /// The draws made since the start, of [`Job::draws`] in all.
    pub fn draws_made(&self) -> u64 {
        self.memory.record[4]
    }

    /// The job.
    pub fn job(&self) -> &Job<'a> {
        &self.job
    }

    /// What the run holds.
    pub fn memory(&self) -> &Memory {
        &self.memory
    }

    /// The same, given away.
    pub fn into_memory(self) -> Memory {
        self.memory
    }
}
