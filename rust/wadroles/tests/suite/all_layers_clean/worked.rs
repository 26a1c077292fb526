//! Cases worked by hand.

use super::file;
use crate::all_layers::file_in;
use crate::inputs::{octahedra, part_p, CLEAN_FILE_P};
use crate::operations::Given;
use meshes::shapes::{bipyramid, cuboid, octahedron, pillow, tetrahedron};
use meshes::Mesh;

#[test]
fn part_p_keeps_a_layer_without_contours_at_height_10() {
    assert_eq!(file(part_p()), CLEAN_FILE_P);
}

#[test]
fn each_height_of_part_p_alone() {
    let alone = |height| file(part_p().over(&[height]));
    assert_eq!(alone(0), [1, 0, 0]);
    assert_eq!(alone(5), [&[1][..], &CLEAN_FILE_P[3..12]].concat());
    assert_eq!(alone(10), [1, 0x14, 0]);
    assert_eq!(alone(11), [1, 0x16, 0]);
    // Points (1, 0), (0, 1) and (0, 0).
    assert_eq!(alone(9), [1, 0x12, 1, 3, 2, 0, 1, 2, 0, 1]);
}

#[test]
fn contours_without_a_point_to_drop_are_written_as_in_the_full_profile() {
    for mesh in [octahedra(10, 10), tetrahedron(1_000)] {
        let given = Given::new(mesh).over(&[-9, 1, 5]);
        assert_eq!(file(given.clone()), file_in::<false>(given));
    }
}

#[test]
fn equal_points_of_a_box_are_written_once() {
    // Of each side the diagonal crosses the plane where the edge does, but for the first.
    let given = Given::new(cuboid([-9, -9, 0], [9, 9, 4])).over(&[4]);
    let full = file_in::<false>(given.clone());
    assert_eq!(full[..4], [1, 8, 1, 8]);
    let clean = file(given);
    assert_eq!(clean[..4], [1, 8, 1, 4]);
    assert_eq!(clean.len(), full.len() - 2 * 4);
}

#[test]
fn a_flat_mesh_has_layers_without_contours() {
    let given = Given::new(pillow(1_000)).over(&[1, 500, 1_000]);
    let full = file_in::<false>(given.clone());
    assert_eq!(full[..4], [3, 2, 1, 2]);
    let heights = [[2, 0].to_vec(), vec![0xE8, 7, 0], vec![0xD0, 0x0F, 0]];
    assert_eq!(file(given), [vec![3], heights.concat()].concat());
}

#[test]
fn some_contours_go_and_the_others_stay() {
    // The inner octahedron has shrunk to its apex.
    let given = Given::new(octahedra(3, 10)).over(&[3]);
    let alone = Given::new(octahedron(10)).over(&[3]);
    assert_eq!(file_in::<false>(given.clone())[2], 2);
    assert_eq!(file(given), file(alone));
}

#[test]
fn a_column_without_width_has_no_contour() {
    let column = |radius| Given::new(bipyramid(40, radius, 1_000)).over(&[-500, 0, 999]);
    for radius in [0, 1, 2] {
        let full = file_in::<false>(column(radius));
        assert!(full.len() > 3 * 40 * 2, "{}", full.len());
        assert!(file(column(radius)).len() < full.len() / 2);
    }
    let empty = [3, 0xE7, 7, 0, 0, 0, 0xCE, 0x0F, 0];
    assert_eq!(file(column(0)), empty);
}

#[test]
fn none_of_either_gives_a_file_without_layers() {
    assert_eq!(file(Given::default()), [0]);
    assert_eq!(file(Given::default().over(&[7])), [1, 14, 0]);
    let no_triangles = Given::new(Mesh::new(&[[0, 0, -500], [0, 0, 500]], &[]));
    assert_eq!(file(no_triangles.over(&[-2, 2])), [2, 3, 0, 4, 0]);
}

#[test]
fn default_heights_are_those_of_the_full_profile() {
    let by_default = Given::new(tetrahedron(250));
    let given = by_default.clone().over(&[50, 150, 250]);
    assert_eq!(file(by_default), file(given));
}
