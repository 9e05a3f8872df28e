//! A run saved as bytes and taken up again by another process: this program, started anew, which makes calls of ours and writes
//! what came of each.

use std::io::{self, Error, Read, Write, stdin, stdout};
use std::process::{Command, Stdio};

use crate::call::{Ask, Call, Memory, Outcome};
use crate::ours;
use crate::table::{Given, Refusal};

/// The argument that makes this program the other process.
pub const TAKE_UP: &str = "take-up";

/// Makes the calls in another process, each on the memory that the one before left.
pub fn taken_up(call: &Call, asks: &[Ask]) -> io::Result<Vec<Outcome>> {
    let mut saved = Saved::default();
    saved.put_call(call);
    saved.put_all(asks.iter(), Saved::put_ask);
    let program = std::env::current_exe()?;
    let mut other = Command::new(program).arg(TAKE_UP).stdin(Stdio::piped()).stdout(Stdio::piped()).spawn()?;
    other.stdin.take().unwrap().write_all(&saved.bytes)?;
    let said = other.wait_with_output()?;
    if !said.status.success() {
        return Err(Error::other("the other process failed"));
    }
    let mut saved = Saved { bytes: said.stdout, at: 0 };
    Ok(saved.take_all(Saved::take_outcome))
}

/// The other process.
pub fn take_up() -> io::Result<()> {
    let mut saved = Saved::default();
    stdin().read_to_end(&mut saved.bytes)?;
    let mut call = saved.take_call();
    let asks = saved.take_all(Saved::take_ask);
    let outcomes = ours::answers(&mut call, &asks);
    let mut saved = Saved::default();
    saved.put_all(outcomes.iter(), Saved::put_outcome);
    stdout().write_all(&saved.bytes)
}

/// Numbers of eight bytes each, and how many of them were read back.
#[derive(Default)]
struct Saved {
    bytes: Vec<u8>,
    at: usize,
}

impl Saved {
    fn put(&mut self, number: u64) {
        self.bytes.extend(number.to_le_bytes());
    }

    fn take(&mut self) -> u64 {
        let number = self.bytes[self.at..self.at + 8].try_into().unwrap();
        self.at += 8;
        u64::from_le_bytes(number)
    }

    fn put_all<T>(&mut self, items: impl ExactSizeIterator<Item = T>, put: impl Fn(&mut Self, T)) {
        self.put(items.len() as u64);
        items.for_each(|item| put(self, item));
    }

    fn take_all<T>(&mut self, take: impl Fn(&mut Self) -> T) -> Vec<T> {
        (0..self.take()).map(|_| take(self)).collect()
    }

    fn put_words(&mut self, words: &[u32]) {
        self.put_all(words.iter(), |saved, &word| saved.put(word.into()));
    }

    fn take_words(&mut self) -> Vec<u32> {
        self.take_all(|saved| saved.take() as u32)
    }

    fn put_floats(&mut self, floats: &[f32]) {
        self.put_all(floats.iter(), |saved, &float| saved.put(float.to_bits().into()));
    }

    fn take_floats(&mut self) -> Vec<f32> {
        self.take_all(|saved| f32::from_bits(saved.take() as u32))
    }

    fn put_call(&mut self, call: &Call) {
        let given = &call.given;
        [given.size, given.s, given.c, given.t, call.n].iter().for_each(|&size| self.put(size as u64));
        self.put(given.weight.to_bits().into());
        self.put_words(&given.tiles);
        self.put_floats(&given.colours);
        self.put_words(&given.counts);
        self.put_words(&call.samples);
        self.put_memory(&call.memory);
    }

    fn take_call(&mut self) -> Call {
        let [size, s, c, t, n] = [(); 5].map(|_| self.take() as usize);
        let given = Given {
            size,
            s,
            c,
            t,
            weight: f32::from_bits(self.take() as u32),
            tiles: self.take_words(),
            colours: self.take_floats(),
            counts: self.take_words(),
        };
        Call { given, n, samples: self.take_words(), memory: self.take_memory() }
    }

    fn put_memory(&mut self, memory: &Memory) {
        self.put_words(&memory.order);
        self.put_words(&memory.hints);
        self.put_floats(&memory.palette);
        self.put_floats(&memory.least);
        self.put_all(memory.record.iter(), |saved, &word| saved.put(word));
    }

    fn take_memory(&mut self) -> Memory {
        Memory {
            order: self.take_words(),
            hints: self.take_words(),
            palette: self.take_floats(),
            least: self.take_floats(),
            record: self.take_all(Saved::take),
        }
    }

    fn put_ask(&mut self, ask: &Ask) {
        let (kind, number) = match ask {
            Ask::Start(seed) => (0, *seed),
            Ask::Advance(allotment) => (1, *allotment),
            Ask::HandIn(_) => (2, 0),
            Ask::Result(_) => (3, 0),
        };
        self.put(kind);
        self.put(number);
        self.put_floats(ask.colours().unwrap_or_default());
    }

    fn take_ask(&mut self) -> Ask {
        let (kind, number, colours) = (self.take(), self.take(), self.take_floats());
        match kind {
            0 => Ask::Start(number),
            1 => Ask::Advance(number),
            2 => Ask::HandIn(colours),
            _ => Ask::Result(colours),
        }
    }

    fn put_outcome(&mut self, outcome: &Outcome) {
        self.put(outcome.refusal.number.into());
        self.put(outcome.refusal.index as u64);
        self.put(outcome.draws);
        self.put_memory(&outcome.memory);
        self.put_floats(&outcome.colours);
        self.put(outcome.kept.into());
    }

    fn take_outcome(&mut self) -> Outcome {
        Outcome {
            refusal: Refusal { number: self.take() as u32, index: self.take() as usize },
            draws: self.take(),
            memory: self.take_memory(),
            colours: self.take_floats(),
            kept: self.take() != 0,
        }
    }
}
