//! Cases worked by hand.

use super::{assert_broken, exact};
use crate::harness::{agree, assert_answer, Case};
use crate::inputs::{LAYER_FILE_P, PART_FILE_P};
use crate::operations::{LayerFile, ReadLayer};
use oracle::{encode_layers, FileLayer};
use wadroles::{check, cut, read_part, CheckTables, CutTables, Mesh, PairedMesh, Part};

/// The farthest a coordinate may be from zero.
const M: i32 = 1_048_576;

fn layer(height: i32, contours: &[&[[i32; 2]]]) -> FileLayer {
    FileLayer {
        height,
        contours: contours.iter().map(|contour| contour.to_vec()).collect(),
    }
}

/// The points and the ends of a layer as the product writes them.
#[track_caller]
fn written(file: &[u8], i: usize) -> (Vec<i32>, Vec<u32>) {
    let mut case = exact(file, i);
    agree(&mut case).unwrap();
    let tables = case.tables;
    (tables.points.view().to_vec(), tables.ends.view().to_vec())
}

#[test]
fn the_layers_of_part_p() {
    let read = |i| exact(&LAYER_FILE_P, i);
    assert_answer(&read(0), Ok((4, 0, 0, 0)));
    assert_answer(&read(1), Ok((4, 5, 1, 3)));
    assert_answer(&read(2), Ok((4, 10, 1, 3)));
    assert_answer(&read(3), Ok((4, 11, 0, 0)));
    assert_eq!(written(&LAYER_FILE_P, 0), (vec![], vec![]));
    assert_eq!(written(&LAYER_FILE_P, 1), (vec![5, 0, 0, 5, 0, 0], vec![3]));
    assert_eq!(written(&LAYER_FILE_P, 2), (vec![0; 6], vec![3]));
    assert_eq!(written(&LAYER_FILE_P, 3), (vec![], vec![]));
}

#[test]
fn the_bytes_80_00_are_refused_at_place_0() {
    assert_broken(&[0x80, 0x00], 0);
}

#[test]
fn part_p_is_cut_into_the_layers_of_its_file() {
    let part = &mut Part {
        coords: &mut [9; 12],
        corners: &mut [9; 12],
        heights: &mut [9; 4],
    };
    read_part(&PART_FILE_P, part).unwrap();
    let mesh = Mesh {
        coords: part.coords,
        corners: part.corners,
    };
    let made = &mut CheckTables {
        pairing: &mut [9; 12],
        order: &mut [9; 4],
    };
    check(mesh, made).unwrap();
    let paired = PairedMesh {
        mesh,
        pairing: made.pairing,
    };
    let tables = &mut CutTables {
        names: &mut [9; 12],
        points: &mut [9; 24],
        ends: &mut [9; 12],
        marks: &mut [9; 12],
    };
    let layers = [0, 1, 2, 3].map(|i| {
        let height = part.heights[i];
        let counts = cut(paired, height, tables).unwrap();
        assert!(counts.contours < 2);
        let points = tables.points[..2 * counts.points].chunks(2);
        let contour = points.map(|p| [p[0], p[1]]).collect();
        let contours = [contour].into_iter().take(counts.contours).collect();
        FileLayer { height, contours }
    });
    assert_eq!(encode_layers(&layers), LAYER_FILE_P);
}

#[test]
fn a_file_without_layers() {
    assert_broken(&[], 0);
    assert_answer(&exact(&[0], 0), Err((15, 0)));
    assert_broken(&[0, 0], 1);
}

#[test]
fn several_contours_are_told_apart_by_their_ends() {
    let file = encode_layers(&[
        layer(-70, &[&[[1, 2], [3, 4]], &[[5, 6], [7, 8], [9, 10]]]),
        layer(-6, &[&[[0, 1]; 2], &[[2, 3]; 4], &[[4, 5]; 3]]),
    ]);
    let read = |i| exact(&file, i);
    assert_answer(&read(0), Ok((2, -70, 2, 5)));
    assert_answer(&read(1), Ok((2, -6, 3, 9)));
    assert_eq!(written(&file, 0), ((1..=10).collect(), vec![2, 5]));
    let (points, ends) = written(&file, 1);
    assert_eq!(points[..6], [0, 1, 0, 1, 2, 3]);
    assert_eq!(ends, [2, 6, 9]);
}

#[test]
fn the_first_point_of_a_contour_is_no_difference() {
    // Two contours of two points: (1, 2), one unit left and up; (3, 4), one right and down.
    let file = [1, 0, 2, 2, 2, 4, 1, 2, 2, 6, 8, 2, 1];
    assert_eq!(
        written(&file, 0),
        (vec![1, 2, 0, 3, 3, 4, 4, 3], vec![2, 4])
    );
}

#[test]
fn heights_of_32_bits_are_read() {
    let heights = [i32::MIN, i32::MIN + 1, -65, -64, -1, 0, 1, 63, 64, i32::MAX];
    let file = encode_layers(&heights.map(|height| layer(height, &[])));
    assert_eq!(file[1..6], [255, 255, 255, 255, 15]);
    for (i, height) in heights.into_iter().enumerate() {
        assert_answer(&exact(&file, i), Ok((10, height, 0, 0)));
    }
}

#[test]
fn the_longest_differences_are_read() {
    let corners = [[-M, -M], [M, M], [-M, M], [M, -M], [-M, -M]];
    let file = encode_layers(&[layer(0, &[&corners])]);
    assert_eq!(written(&file, 0).0, corners.concat());
}

#[test]
fn a_layer_that_is_not_there_is_refused() {
    let far = [1 << 31, 1 << 32, (1 << 32) + 1, usize::MAX - 1, usize::MAX];
    for i in [4, 5, 23].into_iter().chain(far) {
        assert_answer(&exact(&LAYER_FILE_P, i), Err((15, 0)));
    }
}

#[test]
fn tables_need_two_entries_per_point_and_one_per_contour() {
    let file = encode_layers(&[layer(0, &[]), layer(1, &[&[[1, 2]; 3], &[[3, 4]; 2]])]);
    let lent = |i, lengths| Case::<ReadLayer>::lent(LayerFile::new(&file, i), lengths);
    for lengths in [
        [9, 2],
        [10, 1],
        [9, 1],
        [0, 2],
        [10, 0],
        [0, 0],
        [2, 10],
        [5, 5],
    ] {
        assert_answer(&lent(1, lengths), Err((9, 0)));
    }
    for lengths in [[10, 2], [11, 2], [10, 3], [40, 40]] {
        assert_answer(&lent(1, lengths), Ok((2, 1, 2, 5)));
    }
    for lengths in [[0, 0], [1, 0], [0, 1], [7, 7]] {
        assert_answer(&lent(0, lengths), Ok((2, 0, 0, 0)));
    }
}
