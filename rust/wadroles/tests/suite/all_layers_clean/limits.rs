//! The largest meshes, the most layers, the most points.

use super::file;
use crate::all_layers::file_in;
use crate::inputs::largest_torus;
use crate::operations::Given;
use meshes::shapes::{bipyramid, cuboid};
use meshes::Random;

#[test]
fn the_largest_mesh_is_swept() {
    let heights = [-300_001, -299_999, -5, 5, 123_456, 300_000, 300_001];
    for (smaller, least) in [(1, 5 * 512), (1_000, 3 * 512), (50_000, 5 * 10)] {
        let mut mesh = largest_torus().smaller(smaller);
        let as_made = file(Given::new(mesh.clone()).over(&heights));
        mesh.shuffle(&mut Random::new(1));
        let shuffled = file(Given::new(mesh).over(&heights));
        for file in [as_made, shuffled] {
            assert!(file.len() > least, "{}", file.len());
        }
    }
}

#[test]
fn every_triangle_may_be_crossed() {
    let mut mesh = largest_torus();
    for (vertex, z) in mesh.coords.iter_mut().skip(2).step_by(3).enumerate() {
        let (i, j) = (vertex / 256, vertex % 256);
        *z = if (i + j) % 2 == 0 { -7 } else { 7 };
    }
    let given = Given::new(mesh).over(&[-7, -6, 0, 7, 8]);
    let clean = file(given.clone());
    assert!(clean.len() > 65_536, "{}", clean.len());
    assert!(clean.len() < file_in::<false>(given).len());
}

#[test]
fn the_longest_contour_of_a_double_cone() {
    for radius in [1_000_000, 1_000, 10] {
        let mesh = bipyramid(32_766, radius, 1_000_000);
        let given = Given::new(mesh).over(&[-400_000, 0, 400_000]);
        let clean = file(given.clone());
        assert!(clean.len() > 3 * 8, "{}", clean.len());
        assert!(clean.len() <= file_in::<false>(given).len());
    }
}

#[test]
fn all_points_of_the_largest_layers_may_be_one() {
    let mesh = bipyramid(32_766, 0, 1_000_000);
    let given = Given::new(mesh).over(&[-400_000, 0, 400_000]);
    let heights = [-400_000, 0, 400_000].map(oracle::encode_signed);
    let layers = heights.map(|height| [height, vec![0]].concat());
    assert_eq!(file(given), [vec![3], layers.concat()].concat());
}

#[test]
fn the_most_layers_with_and_without_contours() {
    let heights: Vec<i32> = (1..=4_096).collect();
    let column = cuboid([-9, -9, 0], [9, 9, 5_000]);
    let layers = oracle::decode_layers(&file(Given::new(column).over(&heights))).unwrap();
    assert_eq!(layers.len(), 4_096);
    assert!(layers.iter().all(|layer| layer.contours.len() == 1));
    let wall = cuboid([-9, 0, 0], [9, 0, 5_000]);
    let layers = oracle::decode_layers(&file(Given::new(wall).over(&heights))).unwrap();
    assert_eq!(layers.len(), 4_096);
    // Of the diagonals one point lies between the ends of the wall.
    let empty = layers.iter().filter(|layer| layer.contours.is_empty());
    assert!(empty.count() > 0);
}
