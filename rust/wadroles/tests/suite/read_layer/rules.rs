//! Values that break a rule of the file, worked by hand.

use super::{assert_broken, exact};
use crate::harness::{agree, assert_answer};
use crate::inputs::LAYER_FILE_P;
use oracle::{encode_layers, encode_signed, FileLayer};

/// The farthest a coordinate may be from zero.
const M: i32 = 1_048_576;

fn layer(height: i32, contours: &[&[[i32; 2]]]) -> FileLayer {
    FileLayer {
        height,
        contours: contours.iter().map(|contour| contour.to_vec()).collect(),
    }
}

/// The points of the first layer as the product writes them.
#[track_caller]
fn points(file: &[u8]) -> Vec<i32> {
    let mut case = exact(file, 0);
    agree(&mut case).unwrap();
    case.tables.points.view().to_vec()
}

#[test]
fn the_whole_file_is_checked_whichever_layer_is_read() {
    // In turn: the last contour count longer than need be, a byte left over, one missing.
    assert_broken(&[&LAYER_FILE_P[..22], &[0x80, 0x00]].concat(), 22);
    assert_broken(&[&LAYER_FILE_P[..], &[0x00]].concat(), 23);
    assert_broken(&LAYER_FILE_P[..22], 22);
    let mut last_point = LAYER_FILE_P;
    last_point[20] = 0x80;
    assert_broken(&last_point, 22);
    let mut last_height = LAYER_FILE_P;
    last_height[21] = 0x14;
    assert_broken(&last_height, 21);
}

#[test]
fn a_missing_value_has_the_length_of_the_file_as_its_place() {
    for length in 0..23 {
        assert_broken(&LAYER_FILE_P[..length], length as u64);
    }
}

#[test]
fn a_value_cut_short_is_refused_at_its_first_byte() {
    assert_broken(&[0x80], 0);
    assert_broken(&[0x01, 0x80, 0x80], 1);
    assert_broken(&[0x01, 0x02, 0xFF, 0xFF, 0xFF, 0xFF], 2);
    assert_broken(&[0x01, 0x02, 0x01, 0x80], 3);
    assert_broken(&[0x01, 0x02, 0x01, 0x02, 0x04, 0x80, 0x80], 5);
    assert_broken(&[0x01, 0x02, 0x01, 0x02, 0x04, 0x04, 0x81], 6);
}

#[test]
fn bytes_left_over_are_refused_at_the_first() {
    for left_over in [
        &[0][..],
        &[1],
        &[128],
        &[255],
        &[0, 0],
        &[128, 0],
        &[255; 9],
    ] {
        assert_broken(&[&LAYER_FILE_P[..], left_over].concat(), 23);
        assert_broken(&[&[0], left_over].concat(), 1);
    }
}

#[test]
fn heights_must_rise() {
    for (low, high) in [
        (0, 0),
        (0, -1),
        (1, -1),
        (-1, -2),
        (-1, -1),
        (5, 4),
        (i32::MIN, i32::MIN),
        (i32::MAX, i32::MAX),
        (i32::MAX, i32::MIN),
        (0, i32::MIN),
    ] {
        let file = encode_layers(&[layer(low, &[]), layer(high, &[])]);
        assert_broken(&file, 2 + encode_signed(low.into()).len() as u64);
    }
    for (low, high) in [(-1, 0), (0, 1), (-2, -1), (-1, 1), (i32::MIN, i32::MAX)] {
        let file = encode_layers(&[layer(low, &[]), layer(high, &[])]);
        assert_answer(&exact(&file, 1), Ok((2, high, 0, 0)));
    }
    // Not above the one before, though above the first.
    let file = encode_layers(&[layer(0, &[]), layer(9, &[]), layer(5, &[])]);
    assert_broken(&file, 5);
}

#[test]
fn a_contour_has_two_points_at_least() {
    assert_broken(&[1, 0, 1, 0], 3);
    assert_broken(&[1, 0, 1, 1, 0, 0], 3);
    assert_broken(&[1, 0, 2, 2, 0, 0, 0, 0, 1, 0, 0], 8);
    let two = [1, 0, 1, 2, 0, 0, 0, 0];
    assert_answer(&exact(&two, 0), Ok((1, 0, 1, 2)));
}

#[test]
fn points_pass_up_to_the_limit() {
    let inside = [0, 1];
    for position in 0..4 {
        for value in [-M, M] {
            let mut contour = [inside; 2];
            contour[position / 2][position % 2] = value;
            let file = encode_layers(&[layer(0, &[&contour])]);
            assert_eq!(points(&file), contour.concat());
            assert_answer(&exact(&file, 0), Ok((1, 0, 1, 2)));
        }
        for value in [i32::MIN, -M - 1, M + 1, i32::MAX] {
            // Each of the values before takes one byte.
            let mut contour = [inside; 2];
            contour[position / 2][position % 2] = value;
            let file = encode_layers(&[layer(0, &[&contour])]);
            assert_broken(&file, 4 + position as u64);
        }
    }
}

#[test]
fn a_difference_may_not_lead_out_of_range() {
    // From the first point of a contour by a difference in x.
    let file = |x: i32, difference: i64| {
        let mut file = vec![1, 0, 1, 2];
        file.extend(encode_signed(x.into()));
        file.push(0);
        let place = file.len() as u64;
        file.extend(encode_signed(difference));
        file.push(0);
        (file, place)
    };
    for (x, difference) in [
        (0, M + 1),
        (0, -M - 1),
        (M, 1),
        (-M, -1),
        (1, M),
        (-1, -M),
        (M, i32::MAX),
        (M, i32::MIN),
        (-M, i32::MIN),
        (-M, i32::MAX),
        (-M, 2 * M + 1),
        (0, i32::MAX),
    ] {
        let (file, place) = file(x, difference.into());
        assert_broken(&file, place);
    }
    for (x, difference) in [(0, M), (M, -2 * M), (-M, 2 * M), (M, 0), (1, M - 1)] {
        let (file, _) = file(x, difference.into());
        assert_eq!(points(&file), [x, 0, x + difference, 0]);
    }
}

#[test]
fn a_difference_over_32_bits_is_refused_even_if_it_would_wrap_into_range() {
    for difference in [1 << 32, -(1 << 32), (1 << 31), -(1 << 31) - 1, 1 << 40] {
        let mut file = vec![1, 0, 1, 2, 0, 0];
        file.extend(encode_signed(difference));
        file.push(0);
        assert_broken(&file, 6);
    }
}

#[test]
fn the_first_of_several_wrong_values_is_named() {
    // The second height does not rise, and its contour has one point.
    assert_broken(&[2, 4, 0, 4, 1, 1, 0, 0], 3);
    // The contour has one point, and it is out of range.
    assert_broken(&[1, 0, 1, 1, 0x82, 0x80, 0x80, 0x01, 0], 3);
    // Both x and y are out of range.
    let far = encode_layers(&[layer(0, &[&[[M + 1, M + 1], [0, 0]]])]);
    assert_broken(&far, 4);
    // The point leads back into range, too late.
    let back = encode_layers(&[layer(0, &[&[[0, 0], [0, M + 1], [0, 0]]])]);
    assert_broken(&back, 7);
}
