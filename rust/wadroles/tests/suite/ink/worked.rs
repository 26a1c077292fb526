//! Cases worked by hand.

use super::{assert_charge, assert_ink, contours_of, layers, layers_of, turned};
use crate::all_layers::file_in;
use crate::inputs::{part_p, CLEAN_FILE_P, LAYER_FILE_P};
use crate::read_layer::product_layers;

/// A triangle whose doubled area is 25.
const TRIANGLE: [[i32; 2]; 3] = [[5, 0], [0, 5], [0, 0]];

/// A square of a millimetre, whose doubled area is 2,000,000.
const SQUARE: [[i32; 2]; 4] = [[0, 0], [1_000, 0], [1_000, 1_000], [0, 1_000]];

#[test]
fn part_p_is_charged_one_nanolitre() {
    for (file, bytes) in [
        (file_in::<false>(part_p()), &LAYER_FILE_P[..]),
        (file_in::<true>(part_p()), &CLEAN_FILE_P),
    ] {
        assert_eq!(file, bytes);
        let sums = product_layers(&file).unwrap().into_iter().map(|layer| {
            let areas = layer
                .contours
                .iter()
                .map(|contour| wadroles::area(contour.as_flattened()).unwrap());
            (layer.height, areas.sum::<i64>())
        });
        assert!(sums.eq([(0, 0), (5, 25), (10, 0), (11, 0)]));
        // 25 × 1,000 / 2,000,000 is 0.0125, and every other layer is charged nothing.
        assert_ink(&file, 1_000, Ok(1));
        assert_ink(&file, 1, Ok(1));
        assert_ink(&file, 0, Err((19, 0)));
        assert_ink(&file, 1_001, Err((19, 0)));
    }
}

#[test]
fn the_bytes_of_part_p_cut_short_are_refused() {
    assert_ink(&LAYER_FILE_P[..22], 1_000, Err((13, 22)));
    assert_ink(&LAYER_FILE_P[..22], 1_001, Err((13, 22)));
    assert_ink(&[0x80, 0x00], 1_000, Err((13, 0)));
    assert_ink(&[], 1_000, Err((13, 0)));
}

#[test]
fn a_square_of_a_millimetre_is_charged_its_thickness() {
    for thickness in [1, 2, 50, 100, 999, 1_000] {
        let square = layers(&[&[SQUARE.to_vec()]]);
        assert_charge(&square, thickness, thickness.into());
    }
}

#[test]
fn what_passes_a_whole_nanolitre_is_charged_as_another() {
    // 25 more, so 50,000,025 × 40 / 2,000,000 is 1,000.0005.
    let contours = [contours_of(50_000_000), vec![TRIANGLE.to_vec()]].concat();
    assert_charge(&layers(&[&contours]), 40, 1_001);
    assert_charge(&layers_of(&[50_000_000]), 40, 1_000);
}

#[test]
fn files_without_contours_are_charged_nothing() {
    for thickness in [1, 1_000] {
        assert_ink(&[0], thickness, Ok(0));
        assert_ink(&[1, 9, 0], thickness, Ok(0));
        assert_ink(&[3, 0, 0, 2, 0, 4, 0], thickness, Ok(0));
    }
}

#[test]
fn holes_are_taken_off() {
    let inner = [[100, 100], [200, 100], [200, 200], [100, 200]];
    let hole = turned(&inner);
    // The doubled area of the hole is 20,000, so 1,980,000 is left.
    let holed = [SQUARE.to_vec(), hole.clone()];
    assert_charge(&layers(&[&holed]), 1_000, 990);
    assert_charge(&layers(&[&holed]), 1, 1);
    assert_charge(&layers(&[&[hole.clone(), SQUARE.to_vec()]]), 1_000, 990);
    let filled = [SQUARE.to_vec(), hole, inner.to_vec()];
    assert_charge(&layers(&[&filled]), 1_000, 1_000);
}

#[test]
fn a_sum_below_zero_is_charged_nothing() {
    for thickness in [1, 7, 1_000] {
        assert_charge(&layers(&[&[turned(&TRIANGLE)]]), thickness, 0);
        assert_charge(&layers(&[&[turned(&SQUARE)]]), thickness, 0);
        // The hole is larger than what it is in.
        let lost = [TRIANGLE.to_vec(), turned(&SQUARE)];
        assert_charge(&layers(&[&lost]), thickness, 0);
    }
}

#[test]
fn a_layer_below_zero_takes_nothing_off_the_others() {
    let (square, gap) = ([SQUARE.to_vec()], [turned(&SQUARE)]);
    let two_gaps = [gap.concat(), gap.concat()];
    for thickness in [1, 7, 1_000] {
        let charge = u64::from(thickness);
        assert_charge(&layers(&[&square, &gap]), thickness, charge);
        assert_charge(&layers(&[&gap, &square]), thickness, charge);
        let five = layers(&[&two_gaps, &square, &two_gaps, &square, &gap]);
        assert_charge(&five, thickness, 2 * charge);
    }
}

#[test]
fn a_sum_of_zero_is_charged_nothing() {
    let [square, gap] = [SQUARE.to_vec(), turned(&SQUARE)];
    for contours in [
        vec![square.clone(), gap.clone()],
        vec![gap.clone(), square.clone()],
        vec![square.clone(), square.clone(), gap.clone(), gap],
        vec![vec![[5, 5], [900, 700]]],
        vec![vec![[7, 7]; 9]],
        // Round and back again.
        vec![[square.clone(), turned(&square)].concat()],
    ] {
        assert_charge(&layers(&[&contours]), 1_000, 0);
        let among = layers(&[&contours, &[SQUARE.to_vec()], &contours]);
        assert_charge(&among, 1_000, 1_000);
    }
}

#[test]
fn contours_that_are_not_clean_are_charged_by_their_area() {
    let twice: Vec<[i32; 2]> = SQUARE.iter().flat_map(|&point| [point; 2]).collect();
    let closed = [&SQUARE[..], &SQUARE[..1]].concat();
    for contour in [twice, closed] {
        let file = layers(&[&[contour, vec![[3, 3]; 2], vec![[3, 3], [4, 4]]]]);
        assert_charge(&file, 250, 250);
    }
}

#[test]
fn a_contour_may_go_round_several_times_or_cross_itself() {
    let twice = SQUARE.repeat(2);
    assert_charge(&layers(&[&[twice]]), 300, 600);
    // One loop each way, of the doubled areas 2,000,000 and −500,000.
    let eight = vec![
        [0, 0],
        [1_000, 0],
        [1_000, 1_000],
        [0, 1_000],
        [0, 0],
        [0, -500],
        [-500, -500],
        [-500, 0],
    ];
    assert_eq!(wadroles::area(eight.as_flattened()), Ok(1_500_000));
    assert_charge(&layers(&[&[eight]]), 100, 75);
}

#[test]
fn heights_do_not_matter() {
    let mut square = layers(&[&[SQUARE.to_vec()], &[TRIANGLE.to_vec()]]);
    for heights in [[i32::MIN, i32::MAX], [-5, 0], [0, 1_000_000]] {
        for (layer, height) in square.iter_mut().zip(heights) {
            layer.height = height;
        }
        assert_charge(&square, 20, 21);
    }
}
