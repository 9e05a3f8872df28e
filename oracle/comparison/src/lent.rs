//! Memory that is lent to a call, with guards around it: whatever a call must not write is seen afterwards.

use crate::tally::Same;

const GUARDS: usize = 4;

pub struct Lent<T> {
    all: Vec<T>,
    found: Vec<T>,
}

impl<T: Copy + Same> Lent<T> {
    /// A copy of the values, between guards.
    pub fn new(values: &[T], guard: T) -> Self {
        let guards = [guard; GUARDS];
        let all = [&guards[..], values, &guards[..]].concat();
        Lent { found: all.clone(), all }
    }

    pub fn len(&self) -> usize {
        self.all.len() - 2 * GUARDS
    }

    /// A pointer and never a reference, which would promise that nothing is written.
    pub fn as_ptr(&self) -> *const T {
        self.all[GUARDS..].as_ptr()
    }

    pub fn as_mut_ptr(&mut self) -> *mut T {
        self.all[GUARDS..].as_mut_ptr()
    }

    pub fn values(&self) -> &[T] {
        &self.all[GUARDS..self.all.len() - GUARDS]
    }

    /// Values and guards are as they were found.
    pub fn untouched(&self) -> bool {
        self.all[..].untouched(&self.found)
    }

    pub fn guarded(&self) -> bool {
        let end = self.all.len() - GUARDS;
        self.all[..GUARDS].untouched(&self.found[..GUARDS]) && self.all[end..].untouched(&self.found[end..])
    }
}

impl Lent<f32> {
    /// The values by their bits, in which one NaN is not another.
    pub fn bits(&self) -> Vec<u32> {
        bits(self.values())
    }
}

/// Floats in every bit, in which one NaN is not another.
#[derive(Debug)]
pub struct Bits<'a>(pub &'a [f32]);

impl Same for Bits<'_> {
    fn same(&self, other: &Self) -> bool {
        self.0.untouched(other.0)
    }
}

pub fn bits(values: &[f32]) -> Vec<u32> {
    values.iter().map(|x| x.to_bits()).collect()
}

/// NaNs of which no two have the same bits: quiet and signalling, of both signs, none of them one that arithmetic makes of numbers. A
/// contract cannot tell them apart, so memory that has to stay is full of them.
pub fn nans(n: usize) -> Vec<f32> {
    let nan = |k: u32| {
        // an odd factor spreads the payloads over their 22 bits and keeps them apart, and from 0
        let (sign, quiet, payload) = (k & 1, k >> 1 & 1, (k / 4 + 1).wrapping_mul(0x1_0041) & 0x3f_ffff);
        f32::from_bits(sign << 31 | 0x7f80_0000 | quiet << 22 | payload)
    };
    (0..n as u32).map(nan).collect()
}

pub fn floats(values: &[f32]) -> Lent<f32> {
    Lent::new(values, f32::from_bits(0xa5a5_a5a5))
}

pub fn words(values: &[u32]) -> Lent<u32> {
    Lent::new(values, 0xa5a5_a5a5)
}

pub fn bytes(values: &[u8]) -> Lent<u8> {
    Lent::new(values, 0xa5)
}

pub fn long_words(values: &[u64]) -> Lent<u64> {
    Lent::new(values, 0xa5a5_a5a5_a5a5_a5a5)
}
