//! What `fit` does, as a straightforward Rust program: reads a sheet from standard input, fits each tile by the Rust's own
//! `best_fit` from hint 0, once over all subpalettes and once without the best, prints the lines. It trusts its input; it is the measure of speed, not of right and wrong.

use std::fmt::Write as _;
use std::io::{Read, Write};

use timed::{Door, Make, Oklab};

struct Reader<'a> {
    bytes: &'a [u8],
    at: usize,
}

impl Reader<'_> {
    fn field(&mut self, width: usize) -> u32 {
        let mut value = 0u64;
        for i in self.at / 8..(self.at + width).div_ceil(8) {
            value = value << 8 | u64::from(self.bytes[i]);
        }
        self.at += width;
        (value >> ((8 - self.at % 8) % 8) & ((1 << width) - 1)) as u32
    }

    fn colour(&mut self) -> Oklab {
        let [l, a, b] = [(); 3].map(|_| f32::from_bits(self.field(32)));
        Oklab { l, a, b }
    }

    /// A tile's colours and their counts.
    fn tile(&mut self) -> (Vec<Oklab>, Vec<u32>) {
        let size = self.field(7) as usize;
        let (mut colours, mut counts) = (Vec::with_capacity(size), Vec::with_capacity(size));
        for _ in 0..size {
            counts.push(self.field(6) + 1);
            colours.push(self.colour());
        }
        (colours, counts)
    }
}

fn main() {
    let mut bytes = Vec::new();
    std::io::stdin().read_to_end(&mut bytes).unwrap();
    let mut r = Reader { bytes: &bytes, at: 36 };
    let (s, c, t) = (r.field(4) as usize + 1, r.field(4) as usize + 1, r.field(10) as usize + 1);
    assert_eq!(f32::from_bits(r.field(32)), 2.15, "the Rust's weight is its own");
    let palette: Vec<Vec<Oklab>> = (0..s).map(|_| (0..c).map(|_| r.colour()).collect()).collect();
    let tiles: Vec<_> = (0..t).map(|_| r.tile()).collect();
    let empty: Vec<bool> = tiles.iter().map(|(colours, _)| colours.is_empty()).collect();
    let (mut loads, mut blank) = (vec![0; s], 0);
    let mut out = format!("tiles {t} subpalettes {s}\n");
    for (i, (sub, dist, next)) in Door.fits(&palette, tiles).into_iter().enumerate() {
        *if empty[i] { &mut blank } else { &mut loads[sub] } += 1;
        writeln!(out, "tile {i} sub {sub} dist {:08x} next {next}", dist.to_bits()).unwrap();
    }
    for (i, load) in loads.iter().enumerate() {
        writeln!(out, "load {i} {load}").unwrap();
    }
    writeln!(out, "blank {blank}").unwrap();
    std::io::stdout().write_all(out.as_bytes()).unwrap();
}
