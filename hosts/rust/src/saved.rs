//! A run's memory as bytes, for a file. Hosts in C keep the same bytes (hosts/c/state.c), so that either may go on with a
//! run that the other began.
//!
//! Least significant byte first: the opening; the key; order, hints, palette, least, record; the checksum of all before it.

use std::fmt;

use crate::checksum;
use crate::job::{Colour, Job};
use crate::memory::{Memory, WORDS};
use crate::refusal::Refusal;
use crate::trainer::Trainer;

const OPENING: &[u8; 8] = b"DNKRUN2\n";
/// Of earlier releases, which saved the same with a record of six words.
const EARLIER_OPENING: &[u8; 8] = b"DNKRUN1\n";

/// Why a run could not be taken up from bytes.
#[derive(Clone, Copy, Debug, PartialEq, Eq)]
pub enum RestoreError {
    /// The bytes do not begin as a saved run does.
    NotARun,
    /// The bytes begin as a run that an earlier release saved, whose record has six words and does not know its job's sizes.
    EarlierRelease,
    /// The run that was saved has another key.
    OtherKey,
    /// The bytes are not as many as the job implies.
    Length,
    /// The bytes are not those that were saved: their checksum is wrong.
    Damaged,
    /// The library refused the job or the memory.
    Refused(Refusal),
}

impl fmt::Display for RestoreError {
    fn fmt(&self, f: &mut fmt::Formatter<'_>) -> fmt::Result {
        match self {
            RestoreError::NotARun => f.write_str("it is no saved run"),
            RestoreError::EarlierRelease => f.write_str(
                "it is of an earlier release, whose record has six words and does not know its job's sizes, and cannot be \
                 resumed: finish it with the release that wrote it, or start the run again under another name",
            ),
            RestoreError::OtherKey => f.write_str("it belongs to another job or another seed"),
            RestoreError::Length => f.write_str("it is cut short or goes on past its end"),
            RestoreError::Damaged => f.write_str("it is damaged: its checksum is wrong"),
            RestoreError::Refused(refusal) => refusal.fmt(f),
        }
    }
}

impl std::error::Error for RestoreError {}

impl From<Refusal> for RestoreError {
    fn from(refusal: Refusal) -> Self {
        RestoreError::Refused(refusal)
    }
}

impl<'a> Trainer<'a> {
    /// The run as bytes, from which [`Trainer::restore`] takes it up with the same job.
    ///
    /// The key is the host's: a number that tells this job and all else that the result depends on from others, such as a
    /// [`checksum`] of its sheet and seed. The library knows two jobs apart by S, C, T and n only: **two jobs of equal sizes
    /// are still not told apart** by the record, nor are two that differ in their tile size alone.
    pub fn save(&self, key: u64) -> Vec<u8> {
        let Memory { order, hints, palette, least, record } = self.memory();
        let mut bytes = OPENING.to_vec();
        bytes.extend(key.to_le_bytes());
        order.iter().chain(hints).for_each(|number| bytes.extend(number.to_le_bytes()));
        palette.iter().chain(least).flatten().for_each(|component| bytes.extend(component.to_le_bytes()));
        record.iter().for_each(|word| bytes.extend(word.to_le_bytes()));
        bytes.extend(checksum(&bytes).to_le_bytes());
        bytes
    }

    /// Takes up a run that was saved with this key. Whatever the bytes say, the library checks the memory as in
    /// [`Trainer::resume`].
    ///
    /// ```
    /// use dunkafeto::{console, Tiles, Trainer, SMALL_TILE};
    ///
    /// let mut tiles = Tiles::new(SMALL_TILE);
    /// tiles.push([([0.25, 0.0, 0.0], 40), ([0.75, 0.1, 0.0], 24)]);
    /// let samples = tiles.samples();
    /// let job = tiles.job(2, 1, 2.15, &samples, 0);
    ///
    /// let mut trainer = Trainer::start(job)?;
    /// trainer.advance(5)?;
    /// let bytes = trainer.save(77); // kept in a file; the process may end here
    /// let mut again = Trainer::restore(job, 77, &bytes)?;
    /// assert_eq!(again.finish(console::reduced)?, trainer.finish(console::reduced)?);
    /// # Ok::<(), Box<dyn std::error::Error>>(())
    /// ```
    pub fn restore(job: Job<'a>, key: u64, bytes: &[u8]) -> Result<Self, RestoreError> {
        if saved_by_earlier_release(bytes) {
            return Err(RestoreError::EarlierRelease);
        }
        let rest = bytes.strip_prefix(OPENING).ok_or(RestoreError::NotARun)?;
        let (found, rest) = rest.split_first_chunk().ok_or(RestoreError::Length)?;
        if u64::from_le_bytes(*found) != key {
            return Err(RestoreError::OtherKey);
        }
        let (kept, sum) = rest.split_last_chunk().ok_or(RestoreError::Length)?;
        let memory = memory_of(&job, kept).ok_or(RestoreError::Length)?;
        if checksum(&bytes[..bytes.len() - sum.len()]) != u64::from_le_bytes(*sum) {
            return Err(RestoreError::Damaged);
        }
        Ok(Trainer::resume(job, memory)?)
    }
}

/// Whether the bytes begin as a run that an earlier release saved, whole or cut short: [`Trainer::restore`] refuses them with
/// [`RestoreError::EarlierRelease`]. A host asks before it writes over a file, since that release may still finish the run.
pub fn saved_by_earlier_release(bytes: &[u8]) -> bool {
    bytes.starts_with(EARLIER_OPENING)
}

/// The memory, where the bytes are as many as the job implies.
fn memory_of(job: &Job, bytes: &[u8]) -> Option<Memory> {
    let (n, t, colours) = (job.samples.len(), job.tiles.len(), job.palette_len());
    let (bytes, words) = bytes.split_last_chunk::<{ 8 * WORDS }>()?;
    if bytes.len() != 4 * (n + t + 2 * 3 * colours) {
        return None;
    }
    let mut record = words.chunks_exact(8).map(|word| u64::from_le_bytes(word.try_into().unwrap()));
    let mut numbers = bytes.chunks_exact(4).map(|number| u32::from_le_bytes(number.try_into().unwrap()));
    Some(Memory {
        record: [(); WORDS].map(|()| record.next().unwrap()),
        order: numbers.by_ref().take(n).collect(),
        hints: numbers.by_ref().take(t).collect(),
        palette: colours_of(&mut numbers, colours),
        least: colours_of(&mut numbers, colours),
    })
}

fn colours_of(numbers: &mut impl Iterator<Item = u32>, colours: usize) -> Vec<Colour> {
    (0..colours).map(|_| [(); 3].map(|()| f32::from_bits(numbers.next().unwrap()))).collect()
}
