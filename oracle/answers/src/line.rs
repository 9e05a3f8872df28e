//! Lines of numbers, written and read: each number in hexadecimal, a float as its bits.

use std::fmt::Write;

use terms::{Colour, Palette, Sample, Tile};

/// A line that is being written.
#[derive(Default)]
pub struct Line(String);

impl Line {
    pub fn named(name: &str) -> Self {
        Line(name.to_string())
    }

    pub fn text(&self) -> &str {
        self.0.trim_start()
    }

    pub fn word(mut self, word: &str) -> Self {
        write!(self.0, " {word}").unwrap();
        self
    }

    pub fn number(mut self, n: impl TryInto<u64>) -> Self {
        let n = n.try_into().ok().expect("a number of 64 bits");
        write!(self.0, " {n:x}").unwrap();
        self
    }

    pub fn numbers<N: TryInto<u64>>(self, all: impl IntoIterator<Item = N>) -> Self {
        all.into_iter().fold(self, Line::number)
    }

    pub fn wide(mut self, x: f64) -> Self {
        write!(self.0, " {:016x}", x.to_bits()).unwrap();
        self
    }

    pub fn float(mut self, x: f32) -> Self {
        write!(self.0, " {:08x}", x.to_bits()).unwrap();
        self
    }

    pub fn floats(self, all: &[f32]) -> Self {
        all.iter().copied().fold(self, Line::float)
    }

    pub fn colours<'a>(self, all: impl IntoIterator<Item = &'a Colour>) -> Self {
        all.into_iter().fold(self, |line, colour| line.floats(colour))
    }

    pub fn palette(self, palette: &Palette) -> Self {
        self.colours(palette.iter().flatten())
    }

    /// S, C and the colours.
    pub fn sized_palette(self, palette: &Palette) -> Self {
        self.number(palette.len()).number(palette[0].len()).palette(palette)
    }

    /// The number of colours, then each with its count.
    pub fn tile(self, tile: &Tile) -> Self {
        let start = self.number(tile.counts.len());
        let each = |line: Line, (colour, &count): (&Colour, &u32)| line.floats(colour).number(count);
        tile.colours.iter().zip(&tile.counts).fold(start, each)
    }

    /// T, then a hint for each tile, then the tiles.
    pub fn tiles(self, tiles: &[Tile], hints: &[usize]) -> Self {
        tiles.iter().fold(self.number(tiles.len()).numbers(hints.iter().copied()), Line::tile)
    }

    /// Their number, then tile and place of each.
    pub fn samples(self, samples: &[Sample]) -> Self {
        let each = |line: Line, s: &Sample| line.number(s.tile).number(s.place);
        samples.iter().fold(self.number(samples.len()), each)
    }
}

/// What is left of a line that is being read.
pub struct Words<'a>(std::str::SplitAsciiWhitespace<'a>);

pub type Read<T> = Result<T, String>;

impl<'a> Words<'a> {
    pub fn of(line: &'a str) -> Self {
        Words(line.split_ascii_whitespace())
    }

    pub fn next(&mut self) -> Read<&'a str> {
        self.0.next().ok_or_else(|| "the line is too short".to_string())
    }

    pub fn number(&mut self) -> Read<u64> {
        let word = self.next()?;
        u64::from_str_radix(word, 16).map_err(|_| format!("{word} is no hexadecimal number"))
    }

    pub fn size(&mut self) -> Read<usize> {
        Ok(self.number()? as usize)
    }

    /// A size that is 1 at least and at most `most`.
    pub fn among(&mut self, most: usize) -> Read<usize> {
        let size = self.size()?;
        if (1..=most).contains(&size) { Ok(size) } else { Err(format!("{size:x} is outside 1..{most:x}")) }
    }

    pub fn count(&mut self) -> Read<u32> {
        self.number()?.try_into().map_err(|_| "a count is wider than 32 bits".to_string())
    }

    pub fn wide(&mut self) -> Read<f64> {
        Ok(f64::from_bits(self.number()?))
    }

    pub fn float(&mut self) -> Read<f32> {
        let bits = self.number()?.try_into().map_err(|_| "a float is wider than 32 bits".to_string())?;
        Ok(f32::from_bits(bits))
    }

    pub fn colour(&mut self) -> Read<Colour> {
        Ok([self.float()?, self.float()?, self.float()?])
    }

    pub fn many<T>(&mut self, n: usize, mut one: impl FnMut(&mut Self) -> Read<T>) -> Read<Vec<T>> {
        (0..n).map(|_| one(self)).collect()
    }

    /// All that is left of the line.
    pub fn rest<T>(&mut self, mut one: impl FnMut(&mut Self) -> Read<T>) -> Read<Vec<T>> {
        let mut all = Vec::new();
        while self.0.clone().next().is_some() {
            all.push(one(self)?);
        }
        Ok(all)
    }

    pub fn end(&mut self) -> Read<()> {
        self.0.next().map_or(Ok(()), |word| Err(format!("{word} is past the end of the request")))
    }

    pub fn sized_palette(&mut self) -> Read<Palette> {
        let (s, c) = (self.among(16)?, self.among(16)?);
        self.many(s, |words| words.many(c, Words::colour))
    }

    pub fn tile(&mut self) -> Read<Tile> {
        let n = self.size()?;
        let pairs = self.many(n, |words| Ok((words.colour()?, words.count()?)))?;
        let (colours, counts) = pairs.into_iter().unzip();
        Ok(Tile { colours, counts })
    }

    pub fn tiles(&mut self) -> Read<(Vec<Tile>, Vec<usize>)> {
        let t = self.size()?;
        let hints = self.many(t, Words::size)?;
        Ok((self.many(t, Words::tile)?, hints))
    }

    pub fn samples(&mut self, tiles: &[Tile]) -> Read<Vec<Sample>> {
        let n = self.among(1 << 14)?;
        self.many(n, |words| {
            let (tile, place) = (words.size()?, words.size()?);
            let there = tiles.get(tile).is_some_and(|t| place < t.counts.len());
            if there { Ok(Sample { tile, place }) } else { Err("a sample names no colour".to_string()) }
        })
    }
}
