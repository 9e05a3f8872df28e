//! The reduction to the console's colours.

mod common;

use common::Rng;
use dunkafeto::{checksum, console};

fn all_levels() -> impl Iterator<Item = [usize; 3]> {
    (0..32 * 32 * 32).map(|i| [i / 1_024, i / 32 % 32, i % 32])
}

#[test]
fn each_of_the_console_s_colours_is_its_own_reduction() {
    for levels in all_levels() {
        assert_eq!(console::levels(console::shown(levels)), levels);
    }
}

/// The sum was worked out from the reduction's description in another language.
#[test]
fn the_bits_of_all_colours() {
    let bytes: Vec<u8> = all_levels().flat_map(console::shown).flat_map(f32::to_le_bytes).collect();
    assert_eq!(checksum(&bytes), 0x05f6_8b63_a4aa_3321);
}

#[test]
fn what_hand_in_gets_is_within_its_limit() {
    let mut rng = Rng(31);
    let colours = (0..20_000).map(|_| [(); 3].map(|()| (rng.below(8_001) as f32 - 4_000.0) / 1_000.0));
    for colour in colours {
        let reduced = console::reduced(colour);
        assert!(reduced.iter().all(|component| component.abs() <= 2.0), "{colour:?}");
        assert_eq!(console::reduced(reduced), reduced);
    }
}
