//! A list of the Rust's answers: words of 4 bytes, the most significant first. Whoever replays it reads what was asked and hands in our
//! answer, which is compared with the next words. What a list cannot say is an error: never a difference, never passed over.

use std::fmt;

use foreign::ours::Colour;

/// What was compared and what of it differs, with the byte at which the first difference stands.
#[derive(Default)]
pub struct Tally {
    pub compared: u64,
    pub differ: u64,
    pub first: Option<usize>,
}

/// Why a list is refused, and how far it was read.
#[derive(Debug)]
pub struct Refusal {
    at: usize,
    why: String,
}

impl fmt::Display for Refusal {
    fn fmt(&self, out: &mut fmt::Formatter) -> fmt::Result {
        write!(out, "{}, at byte {}", self.why, self.at)
    }
}

pub type Read<T> = Result<T, Refusal>;

/// Replays the next case of a list.
pub type Case = fn(&mut List) -> Read<()>;

pub struct List<'a> {
    rest: &'a [u8],
    at: usize,
    tally: Tally,
}

/// Replays a whole list: the number of cases, each case, and nothing after them.
pub fn replay(bytes: &[u8], case: Case) -> Read<Tally> {
    let mut list = List { rest: bytes, at: 0, tally: Tally::default() };
    for _ in 0..list.word()? {
        case(&mut list)?;
    }
    match list.rest.len() {
        0 => Ok(list.tally),
        left => list.refuse(format!("bytes left over: {left}")),
    }
}

impl List<'_> {
    pub fn refuse<T>(&self, why: impl Into<String>) -> Read<T> {
        Err(Refusal { at: self.at, why: why.into() })
    }

    pub fn word(&mut self) -> Read<u32> {
        let Some((word, rest)) = self.rest.split_first_chunk() else {
            return self.refuse("the list is cut short");
        };
        (self.rest, self.at) = (rest, self.at + word.len());
        Ok(u32::from_be_bytes(*word))
    }

    /// Two words as one number, the first the more significant.
    pub fn double(&mut self) -> Read<u64> {
        Ok(u64::from(self.word()?) << 32 | u64::from(self.word()?))
    }

    /// A number that there is room for.
    pub fn number(&mut self, most: usize) -> Read<usize> {
        match self.word()? as usize {
            n if n <= most => Ok(n),
            n => self.refuse(format!("there is room for {most}, not for {n}")),
        }
    }

    /// What is asked has no NaN.
    pub fn float(&mut self) -> Read<f32> {
        let x = f32::from_bits(self.word()?);
        if x.is_nan() { self.refuse("a NaN is asked") } else { Ok(x) }
    }

    pub fn colour(&mut self) -> Read<Colour> {
        Ok([self.float()?, self.float()?, self.float()?])
    }

    pub fn words(&mut self, n: usize) -> Read<Vec<u32>> {
        (0..n).map(|_| self.word()).collect()
    }

    pub fn floats(&mut self, n: usize) -> Read<Vec<f32>> {
        (0..n).map(|_| self.float()).collect()
    }

    pub fn colours(&mut self, n: usize) -> Read<Vec<Colour>> {
        (0..n).map(|_| self.colour()).collect()
    }

    /// Counts one comparison, of what ends here.
    pub fn compare(&mut self, same: bool) {
        self.tally.compared += 1;
        if !same {
            self.tally.differ += 1;
            self.tally.first.get_or_insert(self.at);
        }
    }

    /// The next word is our index.
    pub fn same_index(&mut self, ours: usize) -> Read<()> {
        let same = self.word()? as usize == ours;
        self.compare(same);
        Ok(())
    }

    /// The next two words are our number.
    pub fn same_double(&mut self, ours: u64) -> Read<()> {
        let same = self.double()? == ours;
        self.compare(same);
        Ok(())
    }

    /// The next word is our float's pattern. A NaN, whose pattern says nothing, is a difference.
    pub fn same_float(&mut self, ours: f32) -> Read<()> {
        let same = self.word()? == ours.to_bits() && !ours.is_nan();
        self.compare(same);
        Ok(())
    }

    pub fn same_indexes(&mut self, ours: &[u32]) -> Read<()> {
        ours.iter().try_for_each(|&x| self.same_index(x as usize))
    }

    pub fn same_doubles(&mut self, ours: &[u64]) -> Read<()> {
        ours.iter().try_for_each(|&x| self.same_double(x))
    }

    pub fn same_floats(&mut self, ours: &[f32]) -> Read<()> {
        ours.iter().try_for_each(|&x| self.same_float(x))
    }
}
