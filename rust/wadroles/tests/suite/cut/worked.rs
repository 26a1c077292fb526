//! Cases worked by hand.

use super::layer::{layer, Layer};
use crate::harness::{assert_answer, Case};
use crate::inputs;
use crate::operations::{Cut, Given};
use meshes::shapes::{cuboid, octahedron, pillow, tetrahedron};
use meshes::Mesh;

/// Part P of the specification.
fn part_p() -> Mesh {
    tetrahedron(10)
}

/// A mesh with the triangles of part P: vertex 0 leads to 1, 2 and 3 by the corners 3, 0 and 6.
fn like_part_p(points: [[i32; 3]; 4]) -> Mesh {
    Mesh {
        coords: points.concat(),
        ..part_p()
    }
}

fn cut(mesh: Mesh, height: i32) -> Layer {
    layer(Given::new(mesh).at(height))
}

fn no_layer() -> Layer {
    Layer::default()
}

/// A layer of one contour.
fn one_contour(names: &[u32], points: &[[i32; 2]], area: i64) -> Layer {
    Layer {
        names: vec![names.to_vec()],
        points: vec![points.to_vec()],
        ends: vec![names.len() as u32],
        areas: vec![area],
    }
}

#[test]
fn part_p_at_height_5() {
    let expected = one_contour(&[4, 10, 6], &[[5, 0], [0, 5], [0, 0]], 25);
    assert_eq!(cut(part_p(), 5), expected);
}

#[test]
fn part_p_at_height_10_is_three_times_the_same_point() {
    let expected = one_contour(&[4, 10, 6], &[[0, 0]; 3], 0);
    assert_eq!(cut(part_p(), 10), expected);
}

#[test]
fn part_p_at_heights_0_and_11_has_no_contour() {
    for height in [0, 11] {
        assert_eq!(cut(part_p(), height), no_layer());
    }
}

#[test]
fn part_p_just_above_its_bottom() {
    let expected = one_contour(&[4, 10, 6], &[[9, 0], [0, 9], [0, 0]], 81);
    assert_eq!(cut(part_p(), 1), expected);
}

#[test]
fn every_height_of_32_bits_is_taken() {
    for height in [i32::MIN, -1_048_577, -1_048_576, -1, 1_048_577, i32::MAX] {
        assert_eq!(cut(part_p(), height), no_layer());
    }
}

#[test]
fn one_vertex_passed_gives_the_ring_of_the_document() {
    let mesh = like_part_p([[0, 0, 0], [10, 0, 10], [0, 10, 10], [0, 0, 10]]);
    let expected = one_contour(&[0, 6, 3], &[[0, 5], [0, 0], [5, 0]], 25);
    assert_eq!(cut(mesh, 5), expected);
}

#[test]
fn two_vertices_passed_give_the_ring_of_the_document() {
    let mesh = like_part_p([[0, 0, 0], [10, 0, 0], [0, 10, 10], [0, 0, 10]]);
    let points = [[0, 5], [0, 0], [5, 0], [5, 5]];
    assert_eq!(cut(mesh, 5), one_contour(&[0, 6, 4, 9], &points, 50));
}

#[test]
fn the_least_closed_mesh_gives_the_least_contour() {
    let expected = one_contour(&[1, 3], &[[5, 0], [0, 0]], 0);
    assert_eq!(cut(pillow(10), 5), expected);
}

#[test]
fn none_of_either_gives_no_contour() {
    assert_eq!(cut(Mesh::default(), 0), no_layer());
    let no_triangles = Mesh::new(&[[0, 0, -5], [0, 0, 5]], &[]);
    assert_eq!(cut(no_triangles, 0), no_layer());
    let nothing = Case::<Cut>::lent(Given::default(), [1, 2, 3, 4]);
    assert_answer(&nothing, Ok((0, 0)));
}

#[test]
fn unused_vertices_change_nothing() {
    let mut mesh = part_p();
    mesh.coords.extend([7, 7, 5, -9, -9, 4]);
    assert_eq!(cut(mesh, 5), cut(part_p(), 5));
}

#[test]
fn halves_go_away_from_zero() {
    // The edges lead to (−1, 0, 2), (1, 0, 2) and (0, 1, 2).
    let mesh = like_part_p([[0, 0, 0], [-1, 0, 2], [1, 0, 2], [0, 1, 2]]);
    let expected = one_contour(&[0, 6, 3], &[[1, 0], [0, 1], [-1, 0]], 2);
    assert_eq!(cut(mesh, 1), expected);
}

/// x and y of the edge from the first point up to the second.
fn point_on_edge(from: [i32; 3], to: [i32; 3], height: i32) -> [i32; 2] {
    let layer = cut(like_part_p([from, to, to, to]), height);
    let at = layer.names[0].iter().position(|&name| name == 3).unwrap();
    layer.points[0][at]
}

#[test]
fn points_are_rounded_to_the_nearest_on_either_side_of_zero() {
    // The edge leads to (x, y, z), and is met at a height.
    for (to, height, point) in [
        ([3, -3, 2], 1, [2, -2]),
        ([5, -5, 2], 1, [3, -3]),
        ([7, -7, 2], 1, [4, -4]),
        ([1, -1, 3], 1, [0, 0]),
        ([1, -1, 3], 2, [1, -1]),
        ([2, -2, 3], 1, [1, -1]),
        ([5, -5, 3], 1, [2, -2]),
        ([5, -5, 3], 2, [3, -3]),
        ([1, -1, 4], 1, [0, 0]),
        ([1, -1, 4], 2, [1, -1]),
        ([1, -1, 4], 3, [1, -1]),
        ([6, -6, 4], 1, [2, -2]),
        ([6, -6, 4], 3, [5, -5]),
        ([9, -9, 4], 4, [9, -9]),
    ] {
        let met = point_on_edge([0, 0, 0], to, height);
        assert_eq!(met, point, "to {to:?} at {height}");
    }
}

#[test]
fn halves_go_by_the_sign_of_the_value_whatever_way_the_edge_leads() {
    // x and y where the edge starts and where it ends; it is met half way.
    for (from, to, point) in [
        ([1, -1], [2, -2], [2, -2]),
        ([2, -2], [1, -1], [2, -2]),
        ([-1, 1], [2, -2], [1, -1]),
        ([1, -1], [-2, 2], [-1, 1]),
        ([0, 0], [-1, 1], [-1, 1]),
        ([-1, 1], [0, 0], [-1, 1]),
        ([-7, 7], [8, -8], [1, -1]),
        ([-8, 8], [7, -7], [-1, 1]),
        ([-4, 4], [-9, 9], [-7, 7]),
        ([-9, 9], [-4, 4], [-7, 7]),
    ] {
        let met = point_on_edge([from[0], from[1], -3], [to[0], to[1], 3], 0);
        assert_eq!(met, point, "from {from:?} to {to:?}");
    }
}

#[test]
fn points_of_the_longest_edges_are_exact() {
    const M: i32 = 1_048_576;
    let met = |height| point_on_edge([-M, M, -M], [M, -M, M], height);
    for height in [-M + 1, -3, 0, 1, M - 1, M] {
        assert_eq!(met(height), [height, -height]);
    }
    // Of a rise of 2M the edge goes 2M − 1 to the side, so at h it is (h + M) / 2M short of h.
    let met = |height| point_on_edge([-M, M, -M], [M - 1, 1 - M, M], height);
    assert_eq!(met(-1), [-1, 1]);
    assert_eq!(met(0), [-1, 1]);
    assert_eq!(met(1), [0, 0]);
    assert_eq!(met(M), [M - 1, 1 - M]);
}

#[test]
fn a_vertex_on_the_plane_is_not_passed() {
    // The bottom side lies on the plane, then the top side.
    assert_eq!(cut(cuboid([0; 3], [10; 3]), 0), no_layer());
    let top = cut(cuboid([0; 3], [10; 3]), 10);
    assert_eq!((top.contours(), top.area()), (1, 200));
    assert_eq!(cut(cuboid([0; 3], [10; 3]), 11), no_layer());

    // Four of its vertices lie on the plane, and one is below: vertex 4.
    let middle = cut(octahedron(10), 0);
    let mut tips = middle.points[0].clone();
    tips.sort();
    assert_eq!(tips, [[-10, 0], [0, -10], [0, 10], [10, 0]]);
    assert_eq!(middle.areas, [400]);
}

#[test]
fn heights_between_vertices_give_one_section_of_a_box() {
    let mesh = || cuboid([-7, -9, -20], [4, 3, 20]);
    for height in -19..=20 {
        let layer = cut(mesh(), height);
        assert_eq!(layer.ends, [8]);
        assert_eq!(layer.areas, [2 * 11 * 12]);
    }
    for height in [-21, -20, 21] {
        assert_eq!(cut(mesh(), height), no_layer());
    }
}

#[test]
fn tables_need_an_entry_per_corner_and_points_two() {
    let lent = |lengths: [usize; 4]| Case::<Cut>::lent(inputs::part_p(), lengths);
    for lengths in [
        [11, 24, 12, 12],
        [12, 23, 12, 12],
        [12, 24, 11, 12],
        [12, 24, 12, 11],
        [3, 6, 1, 12],
        [12, 12, 12, 12],
        [0, 0, 0, 0],
        [0, 24, 12, 12],
        [12, 0, 12, 12],
        [12, 24, 0, 12],
        [12, 24, 12, 0],
    ] {
        assert_answer(&lent(lengths), Err((9, 0)));
    }
    for lengths in [
        [12, 24, 12, 12],
        [13, 24, 12, 12],
        [12, 25, 12, 12],
        [12, 24, 13, 12],
        [12, 24, 12, 13],
        [40, 40, 40, 40],
    ] {
        assert_answer(&lent(lengths), Ok((1, 3)));
    }
}
