//! Grouping: refusals by docs/SCOPE.md's table, with the pixel that 7 names; entries and indexes by the Rust's `extract`.

use std::collections::{BTreeSet, HashMap};

use answers::rust;
use terms::jobs::{self, Colours};
use terms::rng::Rng;

use super::{Kind, SIZES, kind};
use crate::damage;
use crate::lent::{self, Lent, nans};
use crate::ours;
use crate::table::{self, Refusal};
use crate::tally::Tally;

pub const KINDS: &[Kind] = &[
    kind("grouping", 20_000, 200_000, grouping).bringing(&["at size 64", "at size 256", ENTRIES, COUNTS]),
    kind("damaged pixels", 5_000, 50_000, damaged).bringing(SIZES),
];

/// What is counted of pixels that were grouped: as many entries as can be, and as many pixels of one.
const ENTRIES: &str = "256 entries";
const COUNTS: &str = "entries of 256 pixels";

/// A call of grouping as a stranger may make it.
#[derive(Clone, Debug)]
pub struct Call {
    pub size: usize,
    pub p: usize,
    pub pixels: Vec<u8>,
    pub oklab: Vec<f32>,
    pub zero: Option<[u8; 3]>,
    entry_bytes: Vec<u8>,
    entry_oklab: Vec<f32>,
    entry_counts: Vec<u32>,
    index: Vec<u32>,
}

impl Call {
    fn good(rng: &mut Rng) -> Self {
        let size = jobs::tile_size(rng);
        let p = rng.pick(&[0, 1, 2, 16, 63, 64, size - 1, size, size]);
        Call::of(rng, size, p)
    }

    pub fn of(rng: &mut Rng, size: usize, p: usize) -> Self {
        // of one colour, of few, of more, each of its own
        let most = rng.pick(&[0, 1, 2, 255]);
        let bytes = |rng: &mut Rng| if most == 0 { [9; 4] } else { [0; 4].map(|_| rng.below(most + 1) as u8) };
        let colours = Colours::any(rng, 2.0);
        let mut named: HashMap<[u8; 4], terms::Colour> = HashMap::new();
        let mut call = Call {
            size,
            p,
            pixels: Vec::new(),
            oklab: Vec::new(),
            zero: rng.once_in(2).then(|| bytes(rng)).map(|[r, g, b, _]| [r, g, b]),
            entry_bytes: (0..4 * p).map(|_| rng.word() as u8).collect(),
            entry_oklab: nans(3 * p),
            entry_counts: (0..p).map(|_| rng.word()).collect(),
            index: (0..p).map(|_| rng.word()).collect(),
        };
        for _ in 0..p {
            let pixel = bytes(rng);
            call.pixels.extend(pixel);
            call.oklab.extend(named.entry(pixel).or_insert_with(|| colours.one(rng, 2.0)).iter());
        }
        if rng.once_in(2) {
            // what a pixel that is not kept has for its Oklab is not looked at
            let none = nans(3 * p);
            let aside: Vec<usize> = (0..p).filter(|&k| !call.kept(k)).collect();
            aside.iter().for_each(|k| call.oklab[3 * k..3 * k + 3].copy_from_slice(&none[3 * k..3 * k + 3]));
        }
        call
    }

    fn damage(&mut self, rng: &mut Rng) {
        match rng.below(8) {
            0 if rng.once_in(2) => self.size = damage::tile_size(rng),
            0 => {
                let (more, less) = (self.p.wrapping_add(1), self.p.wrapping_sub(1));
                self.p = rng.pick(&[0, more, less, 65, 257, usize::MAX, 1 << 62, 1 << 63]);
            }
            1 => match rng.below(6) {
                0 => damage::length(rng, &mut self.pixels),
                1 => damage::length(rng, &mut self.oklab),
                2 => damage::length(rng, &mut self.entry_bytes),
                3 => damage::length(rng, &mut self.entry_oklab),
                4 => damage::length(rng, &mut self.entry_counts),
                _ => damage::length(rng, &mut self.index),
            },
            2 | 3 => damage::component(rng, &mut self.oklab, 2.0),
            4 | 5 => self.change_bit(rng),
            _ => {}
        }
    }

    /// One bit of an Oklab, the sign of a zero among them: its colour then comes with two.
    fn change_bit(&mut self, rng: &mut Rng) {
        if !self.oklab.is_empty() {
            let place = rng.below(self.oklab.len());
            let bit = if rng.once_in(2) { 31 } else { rng.below(32) };
            self.oklab[place] = f32::from_bits(self.oklab[place].to_bits() ^ 1 << bit);
        }
    }

    fn pixel(&self, k: usize) -> [u8; 4] {
        self.pixels[4 * k..4 * k + 4].try_into().unwrap()
    }

    fn kept(&self, k: usize) -> bool {
        let [r, g, b, a] = self.pixel(k);
        a != 0 && self.zero != Some([r, g, b])
    }

    /// What the scope says of it.
    fn refusal(&self) -> Refusal {
        let p = self.p;
        if !table::tile_size(self.size) || p > self.size {
            return 2.into();
        }
        let lengths = [
            (self.pixels.len(), 4 * p),
            (self.oklab.len(), 3 * p),
            (self.entry_bytes.len(), 4 * p),
            (self.entry_oklab.len(), 3 * p),
            (self.entry_counts.len(), p),
            (self.index.len(), p),
        ];
        if lengths.iter().any(|(lent, implied)| lent != implied) {
            return 3.into();
        }
        let mut seen: HashMap<[u8; 4], Vec<u32>> = HashMap::new();
        for k in (0..p).filter(|&k| self.kept(k)) {
            let oklab = &self.oklab[3 * k..3 * k + 3];
            if !table::within(oklab, 2.0) {
                return Refusal { number: 7, index: k };
            }
            let bits = lent::bits(oklab);
            if *seen.entry(self.pixel(k)).or_insert(bits.clone()) != bits {
                return 14.into();
            }
        }
        0.into()
    }

    /// The memory that the Rust's `extract` implies for a call that is accepted, and the number of entries.
    fn grouped(&self) -> (usize, Call) {
        let pixels: Vec<[u8; 4]> = (0..self.p).map(|k| self.pixel(k)).collect();
        let oklab = table::colours(&self.oklab);
        terms::host::name(pixels.iter().copied().zip(oklab).rev().collect());
        let grouped = rust(2.15).group(&pixels, self.zero.map(|[r, g, b]| [r, g, b, 77]));
        let mut after = self.clone();
        for (i, entry) in grouped.entries.iter().enumerate() {
            after.entry_bytes[4 * i..4 * i + 4].copy_from_slice(&entry.bytes);
            after.entry_oklab[3 * i..3 * i + 3].copy_from_slice(&entry.oklab);
            after.entry_counts[i] = entry.count;
        }
        for (place, index) in after.index.iter_mut().zip(&grouped.index) {
            *place = index.map_or(*place, |i| i as u32);
        }
        (grouped.entries.len(), after)
    }
}

fn grouping(rng: &mut Rng, _: u64, tally: &mut Tally) {
    let mut call = Call::good(rng);
    for _ in 0..rng.pick(&[0, 1, 1, 2]) {
        call.damage(rng);
    }
    grouped(&call, tally);
}

/// Right but for one or two pixels, at known places: the first of them that is kept is named.
fn damaged(rng: &mut Rng, _: u64, tally: &mut Tally) {
    let size = jobs::tile_size(rng);
    let p = rng.pick(&[1, 2, 3, 16, size]);
    let mut call = Call::of(rng, size, p);
    let places: BTreeSet<usize> = (0..rng.among(1, 2)).map(|_| rng.below(p)).collect();
    for &k in &places {
        let oklab = &mut call.oklab[3 * k..3 * k + 3];
        while table::within(oklab, 2.0) {
            damage::component(rng, oklab, 2.0);
        }
    }
    let bad: Vec<usize> = places.iter().copied().filter(|&k| call.kept(k)).collect();
    let (counted, right) = match bad[..] {
        [] => ("no bad pixel kept", 0.into()),
        [index] => ("7 for one pixel", Refusal { number: 7, index }),
        [index, ..] => ("7 for the first of two", Refusal { number: 7, index }),
    };
    tally.add(counted, 1);
    let read = grouped(&call, tally);
    tally.same(read, right, || format!("damaged at {places:?}: the number and index read here"));
}

/// Gives what the scope says of it.
pub fn grouped(call: &Call, tally: &mut Tally) -> Refusal {
    let refusal = call.refusal();
    let (entries, after) = if refusal.number == 0 { call.grouped() } else { (0, call.clone()) };
    tally.add(ENTRIES, u64::from(entries == 256));
    tally.add(COUNTS, u64::from(entries > 0 && after.entry_counts[0] == 256));

    let (pixels, oklab) = (lent::bytes(&call.pixels), lent::floats(&call.oklab));
    let mut room = ours::Entries {
        bytes: lent::bytes(&call.entry_bytes),
        oklab: lent::floats(&call.entry_oklab),
        counts: lent::words(&call.entry_counts),
        index: lent::words(&call.index),
    };
    let answer = ours::group(call.size, call.p, &pixels, &oklab, call.zero, &mut room);
    let left = (
        (room.bytes.values().to_vec(), room.oklab.bits()),
        (room.counts.values().to_vec(), room.index.values().to_vec()),
        guarded(&pixels, &oklab, &room),
    );
    tally.answered("grouping", call.size, refusal);
    tally.left(call.oklab.iter().chain(&after.entry_oklab));
    let oklab = lent::bits(&after.entry_oklab);
    let right = ((after.entry_bytes, oklab), (after.entry_counts, after.index), true);
    tally.same((answer, left), ((refusal, entries), right), || format!("{call:?}"));
    refusal
}

/// What is only read is untouched, and so is all around what is written.
fn guarded(pixels: &Lent<u8>, oklab: &Lent<f32>, room: &ours::Entries) -> bool {
    let read = pixels.untouched() && oklab.untouched();
    read && room.bytes.guarded() && room.oklab.guarded() && room.counts.guarded() && room.index.guarded()
}
