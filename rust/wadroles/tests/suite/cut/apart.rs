//! Sheets that touch: contours are linked by the pairing, and never by equal points.

use super::layer::{layer, Layer};
use crate::inputs::{boxes_touching_along_an_edge, joined};
use crate::operations::Given;
use meshes::shapes::{cuboid, octahedron, tetrahedron};
use meshes::sheets::two_cubes;
use meshes::Mesh;
use std::collections::BTreeSet;

fn moved(mut mesh: Mesh, distances: [i32; 3]) -> Mesh {
    mesh.move_by(distances);
    mesh
}

fn cut(mesh: Mesh, height: i32) -> Layer {
    layer(Given::new(mesh).at(height))
}

/// The points that two contours have both.
fn shared_points(layer: &Layer, a: usize, b: usize) -> Vec<[i32; 2]> {
    let points = |j: usize| -> BTreeSet<[i32; 2]> { layer.points[j].iter().copied().collect() };
    points(a).intersection(&points(b)).copied().collect()
}

/// Octahedra side by side, which touch at vertex 0 of the first, which is 8 of the second.
fn octahedra_touching_at_a_point() -> Mesh {
    joined(octahedron(10), &moved(octahedron(10), [20, 0, 0]))
}

#[test]
fn solids_touching_at_a_point_with_their_own_vertices() {
    let layer = cut(octahedra_touching_at_a_point(), 0);
    assert_eq!(layer.ends, [4, 8]);
    assert_eq!(layer.areas, [400, 400]);
    assert_eq!(shared_points(&layer, 0, 1), [[10, 0]]);
}

#[test]
fn solids_sharing_a_vertex() {
    let mut mesh = octahedra_touching_at_a_point();
    assert_eq!(mesh.point(0), mesh.point(8));
    mesh.weld(0, 8);
    let layer = cut(mesh, 0);
    assert_eq!(layer.ends, [4, 8]);
    assert_eq!(layer.areas, [400, 400]);
    assert_eq!(shared_points(&layer, 0, 1), [[10, 0]]);
}

#[test]
fn one_tip_on_another() {
    // The first ends in the point where the second begins.
    let mut below = tetrahedron(10);
    below.coords[9..12].copy_from_slice(&[3, 3, 10]);
    let mesh = joined(below, &moved(octahedron(10), [3, 3, 20]));
    assert_eq!(cut(mesh.clone(), 9).ends, [3]);
    assert_eq!(cut(mesh.clone(), 10).points, [[[3, 3]; 3]]);
    assert_eq!(cut(mesh.clone(), 11).ends, [4]);

    // Also if both have the same vertex there, which is 3 and 4 + 4.
    let mut welded = mesh;
    assert_eq!(welded.point(3), welded.point(8));
    welded.weld(3, 8);
    assert_eq!(cut(welded.clone(), 10).points, [[[3, 3]; 3]]);
    assert_eq!(cut(welded, 11).ends, [4]);
}

#[test]
fn boxes_touching_along_an_edge_with_their_own_vertices() {
    let layer = cut(boxes_touching_along_an_edge(), 5);
    assert_eq!(layer.ends, [8, 16]);
    assert_eq!(layer.areas, [200, 200]);
    assert_eq!(shared_points(&layer, 0, 1), [[10, 10]]);
}

#[test]
fn boxes_touching_along_a_side_with_their_own_vertices() {
    let mesh = joined(
        cuboid([0, 0, 0], [10, 10, 10]),
        &cuboid([10, 0, 0], [20, 10, 10]),
    );
    let layer = cut(mesh, 5);
    assert_eq!(layer.ends, [8, 16]);
    assert_eq!(layer.areas, [200, 200]);
    assert_eq!(shared_points(&layer, 0, 1).len(), 3);
}

#[test]
fn boxes_one_on_the_other_with_their_own_vertices() {
    let mesh = joined(
        cuboid([0, 0, 0], [10, 10, 10]),
        &cuboid([0, 0, 10], [10, 10, 20]),
    );
    // At the height of the common side the lower one ends, and the upper one has not begun.
    for height in 1..=20 {
        let layer = cut(mesh.clone(), height);
        assert_eq!((layer.contours(), layer.area()), (1, 200), "{height}");
        let lower = layer.names[0].iter().all(|&name| name < 36);
        assert_eq!(lower, height <= 10, "{height}");
    }
}

#[test]
fn two_solids_at_the_same_place() {
    let mesh = joined(octahedron(10), &octahedron(10));
    let layer = cut(mesh, 3);
    assert_eq!(layer.ends, [4, 8]);
    assert_eq!(layer.points[0], layer.points[1]);
    let shifted: Vec<u32> = layer.names[0].iter().map(|name| name + 24).collect();
    assert_eq!(layer.names[1], shifted);
}

/// The corners of a directed edge.
fn corners_of(mesh: &Mesh, edge: (u32, u32)) -> Vec<usize> {
    (0..mesh.corners.len())
        .filter(|&corner| mesh.edges().nth(corner) == Some(edge))
        .collect()
}

#[test]
fn an_edge_shared_by_four_triangles_is_linked_as_the_pairing_says() {
    let mesh = two_cubes(10);
    let (up, down) = (corners_of(&mesh, (3, 7)), corners_of(&mesh, (7, 3)));
    let box_of = |corner: &usize| corner / 36;
    assert!(up.iter().map(box_of).eq([0, 1]));
    assert!(down.iter().map(box_of).eq([0, 1]));

    let paired = |pairs: [(usize, usize); 2]| {
        let mut given = Given::new(mesh.clone()).at(5);
        for (a, b) in pairs {
            given.pairing[a] = b as u32;
            given.pairing[b] = a as u32;
        }
        layer(given)
    };
    let apart = paired([(up[0], down[0]), (up[1], down[1])]);
    assert_eq!(apart.ends, [8, 16]);
    assert_eq!(apart.areas, [200, 200]);
    assert_eq!(shared_points(&apart, 0, 1), [[10, 10]]);

    let crossed = paired([(up[0], down[1]), (up[1], down[0])]);
    assert_eq!(crossed.ends, [16]);
    assert_eq!(crossed.areas, [400]);
    let meetings = crossed.points[0].iter().filter(|&&p| p == [10, 10]);
    assert_eq!(meetings.count(), 2);
}
