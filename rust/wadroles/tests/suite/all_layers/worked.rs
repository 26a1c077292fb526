//! Cases worked by hand.

use super::{file, with_output};
use crate::harness::{assert_answer, Case};
use crate::inputs::{octahedra, part_p, LAYER_FILE_P};
use crate::operations::{AllLayers, Given};
use meshes::shapes::cuboid;
use meshes::Mesh;
use wadroles::{read_layer, Counts, FlatLayer, Reading};

/// Reads nothing but the counts of a layer, and a few points.
fn tables<'a>(points: &'a mut [i32], ends: &'a mut [u32]) -> FlatLayer<'a> {
    FlatLayer { points, ends }
}

#[test]
fn part_p_has_the_file_of_the_document() {
    assert_eq!(file(part_p()), LAYER_FILE_P);
}

#[test]
fn part_p_is_as_long_as_its_output_need_be() {
    let exact = Case::<AllLayers>::exact(part_p());
    assert_answer(&exact, Ok(23));
    assert_answer(&with_output(exact.clone(), 40), Ok(23));
    assert_answer(&with_output(exact, 22), Err((14, 0)));
}

#[test]
fn each_height_of_part_p_alone() {
    let alone = |height| file(part_p().over(&[height]));
    assert_eq!(alone(0), [0x01, 0x00, 0x00]);
    assert_eq!(alone(5), [&[0x01][..], &LAYER_FILE_P[3..12]].concat());
    assert_eq!(alone(10), [&[0x01][..], &LAYER_FILE_P[12..21]].concat());
    assert_eq!(alone(11), [0x01, 0x16, 0x00]);
    assert_eq!(alone(-1), [0x01, 0x01, 0x00]);
    assert_eq!(alone(i32::MAX), [1, 0xFE, 0xFF, 0xFF, 0xFF, 0x0F, 0]);
    assert_eq!(alone(i32::MIN), [1, 0xFF, 0xFF, 0xFF, 0xFF, 0x0F, 0]);
}

#[test]
fn heights_outside_give_layers_without_contours() {
    let outside = [i32::MIN, -1_048_577, -1, 0, 11, i32::MAX];
    let file = file(part_p().over(&outside));
    for (i, height) in outside.into_iter().enumerate() {
        let read = read_layer(&file, i, &mut tables(&mut [], &mut []));
        let expected = Reading {
            layers: 6,
            height,
            counts: Counts::default(),
        };
        assert_eq!(read, Ok(expected));
    }
}

#[test]
fn several_contours_are_written_apart() {
    let two = Given::new(octahedra(10, 10)).over(&[0]);
    // The edges from the bottom lead to (0, 10), (−10, 0), (0, −10) and (10, 0).
    let square = [4, 0, 20, 19, 19, 20, 19, 20, 20];
    let expected = [&[1, 0, 2][..], &square, &square].concat();
    assert_eq!(file(two), expected);
}

#[test]
fn long_differences_take_several_bytes() {
    const M: i32 = 1_048_576;
    let given = Given::new(cuboid([-M, -M, -M], [M, M, M]));
    let file = file(given.over(&[0]));
    let mut points = [0; 16];
    let read = read_layer(&file, 0, &mut tables(&mut points, &mut [0; 1])).unwrap();
    assert_eq!((read.counts.contours, read.counts.points), (1, 8));
    assert!(points.iter().all(|&x| x == -M || x == M || x == 0));
}

#[test]
fn none_of_either_gives_a_file_without_layers() {
    assert_eq!(file(Given::default()), [0]);
    assert_eq!(file(Given::default().over(&[7])), [1, 14, 0]);
    let no_triangles = Given::new(Mesh::new(&[[0, 0, -500], [0, 0, 500]], &[]));
    assert_eq!(file(no_triangles.over(&[-2, 2])), [2, 3, 0, 4, 0]);
}

#[test]
fn unused_vertices_change_nothing_but_the_default() {
    let mut given = part_p();
    given.mesh.coords.extend([7, 7, 500, -9, -9, -300]);
    given.order = meshes::vertex_order(&given.mesh);
    assert_eq!(file(given.clone()), LAYER_FILE_P);

    // Lowest z is −300 and highest 500: −250, −150, −50, 50, .., 450, none of them in part P.
    given.heights.clear();
    let heights = [-250, -150, -50, 50, 150, 250, 350, 450];
    let expected = heights.map(|h: i32| oracle::encode_signed(h.into()));
    let layers = expected.into_iter().flat_map(|h| [h, vec![0]].concat());
    assert_eq!(
        file(given),
        [8].into_iter().chain(layers).collect::<Vec<u8>>()
    );
}
