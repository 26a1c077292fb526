use super::*;
use crate::encode_layers;
use meshes::Random;

/// The farthest a coordinate may be from zero.
const M: i32 = 1_048_576;

/// A file of layers at rising heights.
fn file(layers: &[&[&[[i32; 2]]]]) -> Vec<u8> {
    let layers: Vec<FileLayer> = (0..)
        .zip(layers)
        .map(|(height, contours)| FileLayer {
            height,
            contours: contours.iter().map(|contour| contour.to_vec()).collect(),
        })
        .collect();
    encode_layers(&layers)
}

fn refused(file: &[u8], thickness: u32) -> (u32, u64) {
    let refusal = ink(file, thickness).unwrap_err();
    (refusal.number, refusal.place)
}

/// A triangle whose doubled area is 25.
const SMALL: [[i32; 2]; 3] = [[5, 0], [0, 5], [0, 0]];

/// A square whose doubled area is 2,000,000.
const SQUARE: [[i32; 2]; 4] = [[0, 0], [1_000, 0], [1_000, 1_000], [0, 1_000]];

fn turned<const N: usize>(mut contour: [[i32; 2]; N]) -> [[i32; 2]; N] {
    contour.reverse();
    contour
}

#[test]
fn charges_are_rounded_up() {
    assert_eq!(ink(&file(&[&[&SMALL]]), 1_000), Ok(1));
    assert_eq!(ink(&file(&[&[&SMALL]]), 1), Ok(1));
    for thickness in [1, 2, 50, 999, 1_000] {
        let charge = u64::from(thickness);
        assert_eq!(ink(&file(&[&[&SQUARE]]), thickness), Ok(charge));
        let more = file(&[&[&SQUARE, &[[0, 0], [1, 0], [0, 1]]]]);
        assert_eq!(ink(&more, thickness), Ok(charge + 1));
        let less = file(&[&[&SQUARE, &[[0, 0], [0, 1], [1, 0]]]]);
        assert_eq!(ink(&less, thickness), Ok(charge));
    }
}

#[test]
fn holes_are_taken_off_and_a_sum_below_zero_charges_nothing() {
    let (hole, gap) = (turned(SMALL), turned(SQUARE));
    assert_eq!(ink(&file(&[&[&SQUARE, &gap]]), 7), Ok(0));
    assert_eq!(ink(&file(&[&[&SQUARE, &SQUARE, &gap]]), 7), Ok(7));
    assert_eq!(ink(&file(&[&[&hole]]), 1_000), Ok(0));
    assert_eq!(ink(&file(&[&[&gap, &SMALL]]), 1_000), Ok(0));
    assert_eq!(ink(&file(&[&[&gap], &[&SQUARE], &[&gap]]), 9), Ok(9));
}

#[test]
fn each_layer_is_rounded_by_itself() {
    assert_eq!(ink(&file(&[&[&SMALL, &SMALL]]), 1), Ok(1));
    assert_eq!(ink(&file(&[&[&SMALL], &[], &[&SMALL]]), 1), Ok(2));
    assert_eq!(ink(&file(&[]), 1), Ok(0));
    assert_eq!(ink(&file(&[&[], &[]]), 1), Ok(0));
}

#[test]
fn the_largest_products_are_exact() {
    let square = [[M, M], [-M, M], [-M, -M], [M, -M]];
    let round = square.repeat(98_304 / 4);
    let back = turned(square).repeat(98_304 / 4);
    // 98,304 × 2^41 × 1,000 / 2,000,000 is 108,086,391,056,891.904.
    let largest = 108_086_391_056_892;
    assert_eq!(ink(&file(&[&[&round]]), 1_000), Ok(largest));
    assert_eq!(ink(&file(&[&[&back]]), 1_000), Ok(0));
    let three = file(&[&[&round], &[&back], &[&round]]);
    assert_eq!(ink(&three, 1_000), Ok(2 * largest));
}

#[test]
fn a_charge_is_the_least_that_is_enough() {
    for round in 0..1_000 {
        let mut random = Random::of_round(1, round);
        let reach = random.choose(&[10, 1_000, M]);
        let contour: Vec<[i32; 2]> = (0..2 + random.below(5))
            .map(|_| [(); 2].map(|()| random.within(-reach..=reach)))
            .collect();
        let thickness = 1 + random.below(1_000) as u32;
        let needed = doubled_area(&contour) * i128::from(thickness);
        let charged = i128::from(ink(&file(&[&[&contour]]), thickness).unwrap());
        assert!(2 * NANOLITRE * charged >= needed);
        assert!(charged == 0 || 2 * NANOLITRE * (charged - 1) < needed);
    }
}

#[test]
fn refusals() {
    let right = file(&[&[&SMALL]]);
    for thickness in [0, 1_001, 65_537, u32::MAX] {
        assert_eq!(refused(&right, thickness), (19, 0));
        assert_eq!(refused(&right[..9], thickness), (13, 9));
        assert_eq!(refused(&[], thickness), (13, 0));
    }
    assert_eq!(refused(&[0, 0], 1), (13, 1));
    assert_eq!(refused(&[1, 0, 1, 1, 0, 0], 1), (13, 3));
    // Contours that are not clean are no reason.
    assert_eq!(ink(&[1, 0, 1, 2, 0, 0, 0, 0], 1), Ok(0));
}
