//! Cases worked by hand.

use super::{assert_broken, exact, of};
use crate::harness::{agree, assert_answer, Case};
use crate::inputs::PART_FILE_P;
use crate::operations::ReadPart;
use meshes::shapes::tetrahedron;
use oracle::Part;

/// A file, with tables of these lengths.
fn lent(file: &[u8], lengths: [usize; 3]) -> Case<ReadPart> {
    Case::lent(file.to_vec(), lengths)
}

/// The part as the product writes it.
#[track_caller]
fn written(file: &[u8]) -> Part {
    let mut case = exact(file);
    agree(&mut case).unwrap();
    Part {
        coords: case.tables.coords.view().to_vec(),
        corners: case.tables.corners.view().to_vec(),
        heights: case.tables.heights.view().to_vec(),
    }
}

#[test]
fn part_p() {
    assert_answer(&exact(&PART_FILE_P), Ok((4, 4, 4)));
    let mesh = tetrahedron(10);
    let expected = Part {
        coords: mesh.coords,
        corners: mesh.corners,
        heights: vec![0, 5, 10, 11],
    };
    assert_eq!(written(&PART_FILE_P), expected);
}

#[test]
fn the_bytes_80_00_are_refused_at_place_0() {
    assert_broken(&[0x80, 0x00], 0);
}

#[test]
fn none_of_any_kind_passes() {
    assert_answer(&exact(&[0, 0, 0]), Ok((0, 0, 0)));
    assert_answer(&lent(&[0, 0, 0], [5, 4, 3]), Ok((0, 0, 0)));
    assert_broken(&[], 0);
    assert_broken(&[0], 1);
    assert_broken(&[0, 0], 2);
}

#[test]
fn each_table_is_filled_from_its_own_values() {
    // One vertex, no triangle, no height; and so on.
    assert_eq!(written(&[1, 0, 2, 4, 6, 0]).coords, [1, 2, 3]);
    assert_eq!(written(&[0, 1, 2, 4, 6, 0]).corners, [2, 4, 6]);
    assert_eq!(written(&[0, 0, 3, 2, 4, 6]).heights, [1, 2, 3]);
    let all = [1, 2, 1, 3, 5, 1, 3, 5, 7, 9, 11, 2, 1, 2];
    assert_answer(&exact(&all), Ok((1, 2, 2)));
    let expected = Part {
        coords: vec![-1, -2, -3],
        corners: vec![1, 3, 5, 7, 9, 11],
        heights: vec![-1, 1],
    };
    assert_eq!(written(&all), expected);
}

#[test]
fn only_the_form_of_values_is_ruled() {
    // Out of range, no vertices, vertices named twice, and heights that do not rise.
    let part = Part {
        coords: vec![i32::MIN, i32::MAX, -1_048_577, 1_048_577, 0, -1],
        corners: vec![u32::MAX, 7, 7, 1 << 31, 2, 3],
        heights: vec![5, 5, i32::MAX, i32::MIN, 0],
    };
    assert_answer(&of(&part), Ok((2, 2, 5)));
    assert_eq!(written(&oracle::encode_part(&part)), part);
}

#[test]
fn tables_need_three_entries_per_vertex_and_triangle_and_one_per_height() {
    for lengths in [
        [11, 12, 4],
        [12, 11, 4],
        [12, 12, 3],
        [4, 4, 4],
        [0, 12, 4],
        [12, 0, 4],
        [12, 12, 0],
        [0, 0, 0],
        [40, 40, 3],
    ] {
        assert_answer(&lent(&PART_FILE_P, lengths), Err((9, 0)));
    }
    for lengths in [
        [12, 12, 4],
        [13, 12, 4],
        [12, 13, 4],
        [12, 12, 5],
        [40, 40, 40],
    ] {
        assert_answer(&lent(&PART_FILE_P, lengths), Ok((4, 4, 4)));
    }
}

#[test]
fn a_broken_file_is_refused_before_short_tables() {
    let left_over = [&PART_FILE_P[..], &[0]].concat();
    for lengths in [[11, 12, 4], [12, 11, 4], [12, 12, 3], [0, 0, 0]] {
        assert_answer(&lent(&PART_FILE_P[..30], lengths), Err((13, 30)));
        assert_answer(&lent(&left_over, lengths), Err((13, 31)));
        assert_answer(&lent(&[0x80, 0x00], lengths), Err((13, 0)));
    }
}

#[test]
fn a_missing_value_has_the_length_of_the_file_as_its_place() {
    for length in 0..31 {
        assert_broken(&PART_FILE_P[..length], length as u64);
    }
}

#[test]
fn a_value_cut_short_is_refused_at_its_first_byte() {
    assert_broken(&[0x80], 0);
    assert_broken(&[0x01, 0x80, 0x80], 1);
    assert_broken(&[0x01, 0x00, 0xFF, 0xFF, 0xFF, 0xFF], 2);
    assert_broken(&[0x01, 0x00, 0x02, 0x80], 3);
    assert_broken(&[0x00, 0x01, 0x02, 0x03, 0x81], 4);
    assert_broken(&[0x00, 0x00, 0x90], 2);
    assert_broken(&[0x00, 0x00, 0x02, 0x01, 0xFF], 4);
}

#[test]
fn bytes_left_over_are_refused_at_the_first() {
    for left_over in [
        &[0][..],
        &[1],
        &[128],
        &[255],
        &[0, 0],
        &[128, 0],
        &[255; 9],
    ] {
        assert_broken(&[&PART_FILE_P[..], left_over].concat(), 31);
        assert_broken(&[&[0, 0, 0], left_over].concat(), 3);
    }
}
