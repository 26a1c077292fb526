//! Layers of meshes with shared edges, paired as Check pairs them.

use super::layer::{layer, product_layer, Layer};
use crate::harness::{test_product, Rounds};
use crate::inputs::{
    checked, shared, solids_sharing_edges, two_cubes_crossed, two_on_an_edge, uneven,
};
use crate::operations::{Cut, Given};
use meshes::sheets::{chessboard, fan, flaps, stack, two_cubes};
use meshes::{random_pairing, Mesh};
use std::ops::Range;

fn cut(mesh: Mesh, height: i32) -> Layer {
    layer(checked(mesh).at(height))
}

/// The cubes of the worked pieces: the bottom and the top of each, and twelve triangles over them.
fn worked_cubes() -> Mesh {
    let floor = [
        [0, 0],
        [10, 0],
        [10, 10],
        [0, 10],
        [20, 10],
        [20, 20],
        [10, 20],
    ];
    let at = |z: i32, range: Range<usize>| floor[range].iter().map(move |&[x, y]| [x, y, z]);
    let points: Vec<[i32; 3]> = at(0, 0..4)
        .chain(at(10, 0..4))
        .chain(at(0, 4..7))
        .chain(at(10, 4..7))
        .collect();
    let triangles = |[a, b, c, d]: [u32; 4], [e, f, g, h]: [u32; 4]| {
        [
            [[a, c, b], [a, d, c], [e, f, g], [e, g, h]],
            [[a, b, f], [a, f, e], [b, c, g], [b, g, f]],
            [[c, d, h], [c, h, g], [d, a, e], [d, e, h]],
        ]
        .concat()
    };
    let first = triangles([0, 1, 2, 3], [4, 5, 6, 7]);
    let second = triangles([2, 8, 9, 10], [6, 11, 12, 13]);
    Mesh::new(&points, &[first, second].concat())
}

#[test]
fn the_cubes_of_the_worked_pieces() {
    let given = checked(worked_cubes());
    assert_eq!([19, 67, 29, 53].map(|c| given.pairing[c]), [29, 53, 19, 67]);
    let layer = layer(given.at(5));
    let names = [
        [13, 21, 19, 27, 25, 33, 31, 15],
        [49, 57, 55, 63, 61, 69, 67, 51],
    ];
    assert_eq!(layer.names, names);
    assert_eq!([layer.points[0][2], layer.points[1][6]], [[10, 10]; 2]);
    assert_eq!(layer.areas, [200, 200]);
}

#[test]
fn two_cubes_are_apart_or_one_contour_by_corner_order() {
    let apart = cut(two_cubes(10), 5);
    assert_eq!(apart.ends, [8, 16]);
    assert_eq!(apart.areas, [200, 200]);
    let crossed = cut(two_cubes_crossed(), 5);
    assert_eq!(crossed.ends, [16]);
    assert_eq!(crossed.areas, [400]);
    for layer in [apart, crossed] {
        let points = layer.points.concat();
        assert_eq!(points.iter().filter(|&&p| p == [10, 10]).count(), 2);
    }
}

#[test]
fn two_tetrahedra_on_an_edge_that_lies_flat() {
    // The edge lies at height 0: part P is above it, the other below.
    let below = cut(two_on_an_edge(), -5);
    assert_eq!(below.areas, [25]);
    let above = cut(two_on_an_edge(), 5);
    assert_eq!(above.points, [[[5, 0], [0, 5], [0, 0]]]);
    assert_eq!(cut(two_on_an_edge(), 0).contours(), 1);
    assert_eq!(cut(two_on_an_edge(), 1).contours(), 1);
}

#[test]
fn cubes_of_boards_and_stacks_are_all_cut() {
    let board = chessboard([4, 3, 1], 10);
    assert_eq!(cut(board, 5).areas, [200; 6]);
    let floors = chessboard([3, 3, 2], 10);
    assert_eq!(cut(floors.clone(), 5).areas, [200; 5]);
    assert_eq!(cut(floors, 15).areas, [200; 4]);
    for floor in 0..5 {
        assert_eq!(cut(stack(5, 10), 10 * floor + 5).areas, [200]);
    }
}

#[test]
fn sheets_round_an_edge_are_all_cut() {
    assert_eq!(cut(flaps(9, 100), 50).areas, [0; 9]);
    // Halfway up each tetrahedron is half as wide as at its foot.
    let fan = cut(fan(2, 100), 50);
    assert_eq!(fan.areas, [2_500, 2_500]);
    assert_eq!(fan.points[0].len(), 3);
}

#[test]
fn solids_sharing_edges_have_the_area_of_all_of_them_in_any_order() {
    for solids in solids_sharing_edges() {
        let heights = solids.mesh.coords.iter().skip(2).step_by(3);
        let (low, high) = (heights.clone().min(), heights.max());
        for height in *low.unwrap()..=*high.unwrap() {
            let layer = layer(solids.clone().at(height));
            assert_eq!(layer.area(), sum_of_areas(&solids, height));
        }
    }
}

/// The sum of the areas with any right pairing: a triangle gives the same part of it.
fn sum_of_areas(given: &Given, height: i32) -> i64 {
    let mut given = given.clone().at(height);
    given.pairing = Given::new(given.mesh.clone()).pairing;
    product_layer(given).area()
}

#[test]
fn random_meshes_with_shared_edges() {
    let tally = test_product::<Cut>("shared edges", 8, shared);
    tally.require(&[0, 9], 100);
}

#[test]
fn random_meshes_with_uneven_edges() {
    let tally = test_product::<Cut>("uneven edges", 25, uneven);
    tally.require(&[0, 7, 9], 100);
    tally.require_places(7);
}

#[test]
fn the_sum_of_areas_is_that_of_every_right_pairing() {
    let rounds = Rounds::one_in(25, "cut, areas by every pairing");
    let [met, differ] = rounds.shares(|random| {
        let given = shared(random);
        let layer = product_layer(given.clone());
        let pairing = random_pairing(&given.mesh, random);
        let other = product_layer(Given { pairing, ..given });
        assert_eq!(layer.area(), other.area());
        let points = |layer: &Layer| layer.points.concat().len();
        assert_eq!(points(&layer), points(&other));
        [layer.contours() > 0, layer.contours() != other.contours()]
    });
    assert!(met > 0.2, "too few layers have a contour: {met}");
    assert!(differ > 0.05, "too few are linked in another way: {differ}");
}
