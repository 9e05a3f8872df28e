//! Damaged sheets: one damage at random, or every one of a kind.

use terms::rng::Rng;

/// A field of 32 bits or a byte replaced, a bit changed, a cut, bytes after.
pub fn damage(rng: &mut Rng, bytes: &mut Vec<u8>) {
    let end = 8 * bytes.len();
    match rng.below(8) {
        0 => bytes.truncate(rng.below(bytes.len() + 1)),
        1 => bytes.push(rng.pick(&[0, 0, 1, 255])),
        2 if end > 0 => {
            let bit = rng.below(end);
            bytes[bit / 8] ^= 128 >> (bit % 8);
        }
        3 if end > 0 => *bytes.last_mut().unwrap() |= 1 << rng.below(7),
        4 | 5 if end >= 86 + 32 => {
            // a component of the palette, which begins at bit 86
            let place = 86 + 32 * rng.below((end - 86) / 32);
            put(bytes, place, odd_float(rng));
        }
        6 if end >= 86 => put(bytes, 54, odd_float(rng)),
        7 if end >= 86 + 32 => put(bytes, rng.among(86, end - 32), odd_float(rng)),
        _ => {}
    }
}

fn odd_float(rng: &mut Rng) -> u32 {
    let size = rng.pick(&[
        2.0,
        2f32.next_up(),
        2f32.next_down(),
        f32::NAN,
        f32::INFINITY,
        0.0,
        f32::from_bits(1),
        16.0,
        16f32.next_up(),
        f32::from_bits(0x7f80_0001),
    ]);
    size.to_bits() ^ (rng.word() & 1) << 31
}

/// 32 bits from bit `at` on.
fn put(bytes: &mut [u8], at: usize, value: u32) {
    for i in 0..32 {
        let (bit, place) = (value >> (31 - i) & 1, at + i);
        let mask = 128 >> (place % 8);
        bytes[place / 8] = bytes[place / 8] & !mask | if bit == 1 { mask } else { 0 };
    }
}

/// Every bit of a sheet changed, and every cut of it.
pub fn damages(bytes: &[u8]) -> impl Iterator<Item = Vec<u8>> {
    let changed = |bit: usize| {
        let mut changed = bytes.to_vec();
        changed[bit / 8] ^= 128 >> (bit % 8);
        changed
    };
    (0..8 * bytes.len()).map(changed).chain((0..=bytes.len()).map(|cut| bytes[..cut].to_vec()))
}

/// Every byte put in at a place.
pub fn added(bytes: &[u8], place: usize) -> impl Iterator<Item = Vec<u8>> {
    (0..=255).map(move |byte| [&bytes[..place], &[byte], &bytes[place..]].concat())
}
