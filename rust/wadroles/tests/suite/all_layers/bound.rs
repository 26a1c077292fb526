//! How long a layer file can be, by the bound of `docs/INTEGRATING.md`.

use super::file;
use crate::harness::Rounds;
use crate::inputs::random_mesh;
use crate::operations::Given;
use meshes::{rising_heights, Mesh};
use oracle::decode_layers;

/// The farthest a coordinate may be from zero.
const M: i32 = 1_048_576;

/// The most bytes of a file whose layers have so many points.
fn most_bytes(points: impl Iterator<Item = usize>) -> usize {
    2 + points.map(|k| 8 + 8 * k + k / 2).sum::<usize>()
}

#[test]
fn files_of_random_meshes() {
    let share = Rounds::one_in(500, "all layers, bound").share(|random| {
        let given = Given::paired(random_mesh(random), random);
        let mut heights = rising_heights(&given.mesh, random);
        if heights.is_empty() {
            heights.push(0);
        }
        let triangles = given.mesh.triangle_count();
        let file = file(given.over(&heights));
        let layers = decode_layers(&file).unwrap();
        let points: Vec<usize> = layers
            .iter()
            .map(|layer| layer.contours.iter().map(Vec::len).sum())
            .collect();
        let most = points.iter().max().copied().unwrap_or(0);
        assert!(most <= triangles);
        assert!(file.len() <= most_bytes(points.into_iter()));
        most > 0
    });
    assert!(share > 0.3, "too few files with points");
}

/// Pairs of triangles back to back, as many as a mesh may have, over three vertices. At the height
/// of two of these each pair has a contour of two points, and every number takes four bytes.
#[test]
fn the_bound_is_reached_but_for_two_bytes() {
    let pairs = 32_768;
    let mesh = Mesh {
        coords: vec![0, 0, 0, M, M, M, -M, -M, M],
        corners: [0, 1, 2, 0, 2, 1].repeat(pairs),
    };
    let partners = [5, 4, 3, 2, 1, 0];
    let pairing = (0..6 * pairs).map(|c| (c / 6 * 6 + partners[c % 6]) as u32);
    let given = Given {
        pairing: pairing.collect(),
        order: vec![0, 1, 2],
        heights: vec![M],
        ..Given::bare(mesh)
    };
    // One byte for the count of layers and not two, and four for the height and not five.
    let longest = most_bytes([65_536].into_iter());
    assert_eq!(longest, 557_066);
    assert_eq!(file(given).len(), longest - 2);
}
