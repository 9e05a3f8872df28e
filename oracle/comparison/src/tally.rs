//! What was compared, and what differed.

use std::collections::BTreeMap;

use terms::{Colour, Tile};

use crate::table::Refusal;

#[derive(Default)]
pub struct Tally {
    pub compared: u64,
    pub differ: u64,
    /// What else a kind counts, by name.
    pub counts: BTreeMap<&'static str, u64>,
    /// How often each number but 0 was the right answer of a public call.
    pub refusals: BTreeMap<u32, u64>,
    /// The case that is being compared.
    pub case: u64,
    /// The first difference: its case, and what was compared.
    pub first: Option<(u64, String)>,
}

impl Tally {
    /// One answer of ours beside the right one.
    pub fn same<T: Same + std::fmt::Debug>(&mut self, ours: T, right: T, asked: impl FnOnce() -> String) {
        self.compared += 1;
        if ours.same(&right) {
            return;
        }
        self.differ += 1;
        if self.first.is_none() {
            self.first = Some((self.case, format!("{}: ours {ours:x?}, right {right:x?}", asked())));
        }
    }

    pub fn add(&mut self, name: &'static str, number: u64) {
        *self.counts.entry(name).or_default() += number;
    }

    /// A public call, the tile size that it was told, and the number and index that are its right answer.
    pub fn answered(&mut self, call: &'static str, size: usize, right: impl Into<Refusal>) {
        let Refusal { number, index } = right.into();
        self.add(call, 1);
        let sized = match size {
            64 => "at size 64",
            256 => "at size 256",
            _ => "at no tile size",
        };
        self.add(sized, 1);
        if number != 0 {
            *self.refusals.entry(number).or_default() += 1;
        }
        if index != 0 {
            self.add("indexes above 0", 1);
        }
    }

    /// Tiles that were accepted: how many are as large as can be, and how many colours are counted as often as can be.
    pub fn tiles(&mut self, tiles: &[Tile]) {
        let large = tiles.iter().filter(|tile| tile.counts.len() == 256).count();
        let counts = tiles.iter().flat_map(|tile| &tile.counts).filter(|&&count| count == 256).count();
        self.add("tiles of 256 colours", large as u64);
        self.add("counts of 256", counts as u64);
    }

    /// Of the floats that a call has to leave: how many are NaNs, which stay bit for bit.
    pub fn left<'a>(&mut self, floats: impl IntoIterator<Item = &'a f32>) {
        self.add("NaNs left", floats.into_iter().filter(|x| x.is_nan()).count() as u64);
    }

    /// Lines that say what was counted.
    pub fn counted(&self) -> Vec<String> {
        let counts: Vec<String> = self.counts.iter().map(|(name, number)| format!("{name} {number}")).collect();
        let refused: Vec<String> = self.refusals.iter().map(|(number, times)| format!("{number}: {times}")).collect();
        let all: u64 = self.refusals.values().sum();
        let mut lines = Vec::new();
        if !counts.is_empty() {
            lines.push(counts.join(", "));
        }
        if all > 0 {
            lines.push(format!("refused {all}, by number {}", refused.join(", ")));
        }
        lines
    }

    /// What another thread counted of the same kind; the first difference is that of the least case.
    pub fn merge(&mut self, other: Tally) {
        self.compared += other.compared;
        self.differ += other.differ;
        other.counts.into_iter().for_each(|(name, number)| self.add(name, number));
        for (refusal, number) in other.refusals {
            *self.refusals.entry(refusal).or_default() += number;
        }
        self.first = [self.first.take(), other.first].into_iter().flatten().min_by_key(|(case, _)| *case);
    }
}

/// Equal bit for bit. The bits of a NaN are not compared: they are the processor's.
pub trait Same {
    fn same(&self, other: &Self) -> bool;

    /// Equal in every bit: for memory that is only carried about.
    fn untouched(&self, other: &Self) -> bool {
        self.same(other)
    }
}

impl Same for f32 {
    fn same(&self, other: &f32) -> bool {
        self.to_bits() == other.to_bits() || (self.is_nan() && other.is_nan())
    }

    fn untouched(&self, other: &f32) -> bool {
        self.to_bits() == other.to_bits()
    }
}

macro_rules! same_as_equal {
    ($($t:ty),*) => { $(impl Same for $t {
        fn same(&self, other: &$t) -> bool {
            self == other
        }
    })* };
}

same_as_equal!(u8, u32, u64, usize, bool, Refusal);

impl<T: Same> Same for [T] {
    fn same(&self, other: &[T]) -> bool {
        self.len() == other.len() && self.iter().zip(other).all(|(a, b)| a.same(b))
    }

    fn untouched(&self, other: &[T]) -> bool {
        self.len() == other.len() && self.iter().zip(other).all(|(a, b)| a.untouched(b))
    }
}

impl<T: Same + ?Sized> Same for &T {
    fn same(&self, other: &&T) -> bool {
        (**self).same(*other)
    }
}

impl<T: Same> Same for Vec<T> {
    fn same(&self, other: &Vec<T>) -> bool {
        self[..].same(&other[..])
    }
}

impl Same for Colour {
    fn same(&self, other: &Colour) -> bool {
        self[..].same(&other[..])
    }
}

impl<T: Same> Same for Option<T> {
    fn same(&self, other: &Option<T>) -> bool {
        match (self, other) {
            (Some(a), Some(b)) => a.same(b),
            (None, None) => true,
            _ => false,
        }
    }
}

macro_rules! same_tuple {
    ($($name:ident $at:tt),*) => { impl<$($name: Same),*> Same for ($($name,)*) {
        fn same(&self, other: &Self) -> bool {
            $(self.$at.same(&other.$at))&&*
        }
    } };
}

same_tuple!(A 0, B 1);
same_tuple!(A 0, B 1, C 2);
same_tuple!(A 0, B 1, C 2, D 3);
same_tuple!(A 0, B 1, C 2, D 3, E 4);
