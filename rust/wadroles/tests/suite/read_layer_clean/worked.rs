//! Cases worked by hand.

use super::{assert_refused, exact, layer, unclean_contours, TRIANGLE};
use crate::harness::{agree, assert_answer};
use crate::inputs::{CLEAN_FILE_P, LAYER_FILE_P};
use oracle::encode_layers;

#[test]
fn the_clean_file_of_part_p_is_read() {
    for (i, answer) in [
        (0, (4, 0, 0, 0)),
        (1, (4, 5, 1, 3)),
        (2, (4, 10, 0, 0)),
        (3, (4, 11, 0, 0)),
    ] {
        assert_answer(&exact(&CLEAN_FILE_P, i), Ok(answer));
    }
    let mut case = exact(&CLEAN_FILE_P, 1);
    agree(&mut case).unwrap();
    assert_eq!(case.tables.points.view(), TRIANGLE.concat());
    assert_eq!(case.tables.ends.view(), [3]);
}

#[test]
fn the_full_file_of_part_p_is_refused_at_height_10() {
    // Byte 12 is the height, 13 the contour count, 14 the point count.
    assert_eq!(LAYER_FILE_P[12..15], [0x14, 0x01, 0x03]);
    assert_refused(&LAYER_FILE_P, 18, 14);
}

#[test]
fn files_without_contours_are_clean() {
    assert_answer(&exact(&[0], 0), Err((15, 0)));
    assert_answer(&exact(&[1, 9, 0], 0), Ok((1, -5, 0, 0)));
    assert_answer(&exact(&[2, 0, 0, 2, 0], 1), Ok((2, 1, 0, 0)));
}

#[test]
fn each_way_to_be_unclean_is_refused() {
    for contour in unclean_contours() {
        let file = encode_layers(&[layer(0, &[&contour])]);
        assert_refused(&file, 18, 3);
    }
}

#[test]
fn points_used_again_elsewhere_are_clean() {
    let [a, b, c] = TRIANGLE;
    for contour in [
        &[a, b, c][..],
        &[a, b, a, c],
        &[a, b, c, b],
        &[a, b, a, b, a, c],
        &[a, b, c, a, b, c],
    ] {
        let file = encode_layers(&[layer(7, &[contour])]);
        assert_answer(&exact(&file, 0), Ok((1, 7, 1, contour.len())));
    }
}

#[test]
fn points_are_compared_and_not_differences() {
    // Equal differences, and a difference of 0 in x or y alone.
    let file = encode_layers(&[layer(
        0,
        &[&[[0, 0], [2, 2], [4, 4]], &[[0, 0], [0, 1], [5, 1]]],
    )]);
    assert_answer(&exact(&file, 0), Ok((1, 0, 2, 6)));
    // The first point is (0, 0), which is sent as the zeros of a point that stands twice.
    let file = encode_layers(&[layer(0, &[&[[0, 0], [0, 1], [1, 0]]])]);
    assert_answer(&exact(&file, 0), Ok((1, 0, 1, 3)));
}
