//! Writes a fit sheet that is as full as the format allows: 16 subpalettes of 16 colours, 1,024 tiles, as many tile
//! colours as 65,536 bytes hold. The colours come from a fixed generator, so that every run is the same.

use std::io::Write;

const BITS: usize = 8 * 65_536;

struct Sheet {
    bytes: Vec<u8>,
    at: usize,
    state: u64,
}

impl Sheet {
    fn field(&mut self, value: u32, width: usize) {
        for i in (0..width).rev() {
            self.bytes[self.at / 8] |= ((value >> i & 1) as u8) << (7 - self.at % 8);
            self.at += 1;
        }
    }

    fn random(&mut self) -> u64 {
        self.state = self.state.wrapping_mul(6364136223846793005).wrapping_add(1442695040888963407);
        self.state >> 33
    }

    /// Three components: lightness from 0 to 1, the others from -0.4 to 0.4.
    fn colour(&mut self) {
        let l = self.random() as f32 / (1u64 << 31) as f32;
        let a = self.random() as f32 / (1u64 << 31) as f32 * 0.8 - 0.4;
        let b = self.random() as f32 / (1u64 << 31) as f32 * 0.8 - 0.4;
        for x in [l, a, b] {
            self.field(x.to_bits(), 32);
        }
    }
}

fn main() {
    let mut sheet = Sheet { bytes: vec![0; 65_536], at: 0, state: 1 };
    let (s, c, t) = (16usize, 16usize, 1024usize);
    for (value, width) in
        [(0x5446_4954, 32), (1, 4), (s as u32 - 1, 4), (c as u32 - 1, 4), (t as u32 - 1, 10), (2.15f32.to_bits(), 32)]
    {
        sheet.field(value, width);
    }
    for _ in 0..s * c {
        sheet.colour();
    }
    let colours = (BITS - sheet.at - 7 * t) / 102;
    for i in 0..t {
        let size = colours * (i + 1) / t - colours * i / t;
        sheet.field(size as u32, 7);
        for k in 0..size {
            let count = 1 + (i + k) % 8;
            sheet.field(count as u32 - 1, 6);
            sheet.colour();
        }
    }
    let len = sheet.at.div_ceil(8);
    std::io::stdout().write_all(&sheet.bytes[..len]).unwrap();
}
