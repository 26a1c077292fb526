use super::{exact, gives, refuses};
use crate::inputs::{CLEAN_FILE_P, LAYER_FILE_P};
use crate::operations::{Ink, Job};

/// A square of a millimetre at height −1, and at height 0 a triangle that goes round clockwise.
const SQUARE_AND_HOLE: [u8; 26] = [
    2, 1, 1, 4, 0, 0, 0xD0, 0x0F, 0, 0, 0xD0, 0x0F, 0xCF, 0x0F, 0, //
    0, 1, 3, 0, 0, 0, 0xD0, 0x0F, 0xD0, 0x0F, 0,
];

fn ink(file: &[u8], thickness: u32) -> (u32, [u64; 4]) {
    exact::<Ink>(Job::new(file, thickness))
}

#[test]
fn ink_gives_the_charge() {
    assert_eq!(ink(&LAYER_FILE_P, 1_000), gives(&[1]));
    assert_eq!(ink(&CLEAN_FILE_P, 1_000), gives(&[1]));
    for (thickness, charge) in [(1, 1), (2, 2), (999, 999), (1_000, 1_000)] {
        assert_eq!(ink(&SQUARE_AND_HOLE, thickness), gives(&[charge]));
    }
    assert_eq!(ink(&[0], 1), gives(&[0]));
    assert_eq!(ink(&[1, 9, 0], 1_000), gives(&[0]));
}

#[test]
fn ink_gives_charges_of_more_than_32_bits() {
    // Round the square of all coordinates, of four points and so of the doubled area 2^43.
    let far = [0x80, 0x80, 0x80, 0x01];
    let back = [0xFF, 0xFF, 0xFF, 0x01];
    let there = [0x80, 0x80, 0x80, 0x02];
    let file = [
        &[1, 0, 1, 4][..],
        &far,
        &far,
        &back,
        &[0, 0],
        &back,
        &there,
        &[0],
    ]
    .concat();
    assert_eq!(ink(&file, 1_000), gives(&[4_398_046_512]));
    assert_eq!(ink(&file, 1), gives(&[4_398_047]));
}

#[test]
fn ink_writes_the_place_of_a_refusal_and_takes_null() {
    for thickness in [0, 1, 1_000, 1_001, u32::MAX] {
        assert_eq!(ink(&[], thickness), refuses(13, 0));
        assert_eq!(ink(&LAYER_FILE_P[..22], thickness), refuses(13, 22));
        assert_eq!(ink(&[0, 0], thickness), refuses(13, 1));
    }
    for thickness in [0, 1_001, 65_537, u32::MAX] {
        assert_eq!(ink(&LAYER_FILE_P, thickness), refuses(19, 0));
        assert_eq!(ink(&[0], thickness), refuses(19, 0));
    }
}
