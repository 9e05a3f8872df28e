//! The sheet: the example of docs/SCOPE.md, and that reading and writing are exact inverses.

mod common;

use common::{Case, Rng, SIZES};
use dunkafeto::{assign, Refusal, Sheet, Tiles, LARGE_TILE, SMALL_TILE};

fn example(size: usize) -> Sheet {
    let mut tiles = Tiles::new(size);
    tiles.push([([0.25, 0.0, 0.0], 4)]);
    tiles.push([]);
    tiles.push([([0.5, 0.0, 0.0], 2)]);
    tiles.push([([1.0, 0.0, 0.0], 1)]);
    Sheet { subpalettes: 2, colours_each: 1, weight: 1.0, palette: vec![[0.0; 3], [1.0, 0.0, 0.0]], tiles }
}

#[test]
fn the_example() {
    let bytes = example(SMALL_TILE).write().unwrap();
    assert_eq!(bytes.len(), 77);
    assert_eq!(bytes[..8], [0x54, 0x46, 0x49, 0x54, 0x11, 0x00, 0x0c, 0xfe]);
    assert_eq!(bytes, include_bytes!("../../../crates/fit/stdin"));
    let sheet = Sheet::read(&bytes).unwrap();
    assert_eq!(sheet, example(SMALL_TILE));
    assert_eq!(assign(&sheet.job(&[], 0), &sheet.palette, &mut [0; 4]), Ok(vec![0, 0, 0, 1]));
}

/// The number of the edition, and two bits more for each tile and each of its colours: 626 in all.
#[test]
fn the_example_in_edition_2() {
    let bytes = example(LARGE_TILE).write().unwrap();
    assert_eq!(bytes.len(), 79);
    assert_eq!(bytes[..8], [0x54, 0x46, 0x49, 0x54, 0x21, 0x00, 0x0c, 0xfe]);
    let sheet = Sheet::read(&bytes).unwrap();
    assert_eq!(sheet, example(LARGE_TILE));
    assert_eq!(sheet.tiles.size(), LARGE_TILE);
    assert_eq!(assign(&sheet.job(&[], 0), &sheet.palette, &mut [0; 4]), Ok(vec![0, 0, 0, 1]));
}

/// 86 bits and two colours of 96 come before the first tile: 9 bits, 000000001, then 8 of its count of 4, 00000011.
#[test]
fn the_fields_of_edition_2() {
    let bytes = example(LARGE_TILE).write().unwrap();
    let field = |at: usize, width: usize| {
        (at..at + width).fold(0, |value, bit| value << 1 | u32::from(bytes[bit / 8] >> (7 - bit % 8) & 1))
    };
    assert_eq!((field(278, 9), field(287, 8), field(295, 32)), (1, 3, 0.25f32.to_bits()));
    assert_eq!((field(391, 9), field(400, 9), field(409, 8), field(417, 32)), (0, 1, 1, 0.5f32.to_bits()));
}

#[test]
fn what_is_read_is_written_back() {
    SIZES.into_iter().for_each(|size| read_and_written(&example(size).write().unwrap()));
}

fn read_and_written(bytes: &[u8]) {
    let mut accepted = 0;
    for bit in 0..8 * bytes.len() {
        let mut touched = bytes.to_vec();
        touched[bit / 8] ^= 0x80 >> (bit % 8);
        if let Ok(sheet) = Sheet::read(&touched) {
            assert_eq!(sheet.write().unwrap(), touched, "bit {bit}");
            accepted += 1;
        }
    }
    assert!(accepted > 200, "{accepted} accepted");
    for len in 0..bytes.len() {
        assert_eq!(Sheet::read(&bytes[..len]), Err(Refusal::SheetBytes), "cut to {len}");
    }
}

#[test]
fn what_is_written_is_read_back() {
    let mut rng = Rng(21);
    for _ in 0..200 {
        let Case { subpalettes, colours_each, weight, tiles, .. } = Case::any(&mut rng);
        let palette = (0..subpalettes * colours_each).map(|_| rng.colour()).collect();
        let sheet = Sheet { subpalettes, colours_each, weight, palette, tiles };
        assert_eq!(Sheet::read(&sheet.write().unwrap()).unwrap(), sheet);
    }
}

#[test]
fn a_wrong_sheet_is_not_written() {
    SIZES.into_iter().for_each(wrong_sheets);
}

fn wrong_sheets(size: usize) {
    let wrong = |change: &dyn Fn(&mut Sheet)| {
        let mut sheet = example(size);
        change(&mut sheet);
        sheet.write().err()
    };
    assert_eq!(wrong(&|sheet| sheet.subpalettes = 17), Some(Refusal::Sizes));
    assert_eq!(wrong(&|sheet| sheet.palette.truncate(1)), Some(Refusal::Lengths));
    assert_eq!(wrong(&|sheet| sheet.weight = 0.0), Some(Refusal::Weight));
    let colours = |colours: usize| wrong(&|sheet| sheet.tiles.push(vec![([0.0; 3], 1); colours]));
    assert_eq!((colours(size), colours(size + 1)), (None, Some(Refusal::Tiles)));
    let count = |count: usize| wrong(&|sheet| sheet.tiles.push([([0.0; 3], count as u32)]));
    assert_eq!((count(size), count(size + 1)), (None, Some(Refusal::Counts)));
    let component = wrong(&|sheet| sheet.palette[1][2] = f32::NAN).unwrap();
    assert_eq!((component.number(), component.index()), (7, 1));
    // so many tiles of 64 colours have room beside the example's: 7 + 64·102 bits each, or 9 + 64·104
    let room = if size == LARGE_TILE { 78 } else { 80 };
    let full = |tiles: usize| wrong(&|sheet| (0..tiles).for_each(|_| sheet.tiles.push([([0.0; 3], 1); 64])));
    assert_eq!((full(room), full(room + 1)), (None, Some(Refusal::SheetBytes)));
}

/// The tile size is the first thing that is looked at.
#[test]
fn a_sheet_of_another_tile_size_is_not_written() {
    for size in [0, 63, 65, 128, 255, 257, 512] {
        let sheet = Sheet { weight: f32::NAN, palette: Vec::new(), ..example(size) };
        assert_eq!((example(size).write().err(), sheet.write().err()), (Some(Refusal::Sizes), Some(Refusal::Sizes)));
    }
}
