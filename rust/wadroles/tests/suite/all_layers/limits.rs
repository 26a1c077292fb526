//! The largest meshes, the most layers, the most points.

use super::file;
use crate::inputs::largest_torus;
use crate::operations::Given;
use meshes::shapes::{bipyramid, cuboid};
use meshes::Random;

#[test]
fn the_largest_mesh_is_swept() {
    let heights = [-300_001, -299_999, -5, 5, 123_456, 300_000, 300_001];
    let mut mesh = largest_torus();
    let as_made = file(Given::new(mesh.clone()).over(&heights));
    mesh.shuffle(&mut Random::new(1));
    let shuffled = file(Given::new(mesh).over(&heights));
    for file in [as_made, shuffled] {
        assert!(file.len() > 5 * 512, "{}", file.len());
    }
}

#[test]
fn every_triangle_may_be_crossed() {
    let mut mesh = largest_torus();
    for (vertex, z) in mesh.coords.iter_mut().skip(2).step_by(3).enumerate() {
        let (i, j) = (vertex / 256, vertex % 256);
        *z = if (i + j) % 2 == 0 { -7 } else { 7 };
    }
    let file = file(Given::new(mesh).over(&[-7, -6, 0, 7, 8]));
    assert!(file.len() > 3 * 65_536, "{}", file.len());
}

#[test]
fn the_longest_contour_of_a_double_cone() {
    let mesh = bipyramid(32_766, 1_000_000, 1_000_000);
    let file = file(Given::new(mesh).over(&[-400_000, 0, 400_000]));
    assert!(file.len() > 3 * 32_766, "{}", file.len());
}

#[test]
fn the_most_layers_with_contours() {
    let heights: Vec<i32> = (1..=4_096).collect();
    let mesh = cuboid([-9, -9, 0], [9, 9, 5_000]);
    let file = file(Given::new(mesh).over(&heights));
    // Eight points of two bytes, their count, and the height; and one count of contours.
    let height = |h: i32| if h < 64 { 1 } else { 2 };
    let layers: usize = heights.iter().map(|&h| height(h) + 1 + 1 + 16).sum();
    assert_eq!(file.len(), 2 + layers);
}
