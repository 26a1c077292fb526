//! Layers of the largest meshes.

use super::layer::layer;
use crate::harness::{assert_answer, Case};
use crate::inputs::largest_torus;
use crate::operations::{Cut, Given};
use meshes::shapes::bipyramid;
use meshes::{Mesh, Random, MAX_TRIANGLES};

const CORNERS: usize = 3 * MAX_TRIANGLES;

/// Neighbours round the axis and round the tube lie on either side of height 0, so that every
/// triangle is crossed.
fn all_crossed() -> Mesh {
    let mut mesh = largest_torus();
    for i in 0..128 {
        for j in 0..256 {
            let z = &mut mesh.coords[3 * (256 * i + j) + 2];
            *z = if (i + j) % 2 == 0 { -7 } else { 7 };
        }
    }
    mesh
}

#[test]
fn the_largest_torus_has_two_contours() {
    let mut mesh = largest_torus();
    // Round the tube lie 256 vertices, none of them at this height; each contour crosses 128 edges
    // round the tube and as many diagonals.
    let middle = Given::new(mesh.clone()).at(5);
    assert_eq!(layer(middle).ends, [256, 512]);

    mesh.shuffle(&mut Random::new(1));
    let lengths = [CORNERS + 5, 2 * CORNERS + 1, CORNERS, CORNERS + 9];
    let case = Case::<Cut>::lent(Given::new(mesh).at(5), lengths);
    assert_answer(&case, Ok((2, 512)));
}

#[test]
fn every_triangle_may_be_crossed() {
    let crossed = layer(Given::new(all_crossed()));
    assert_eq!(crossed.ends.last(), Some(&65_536));
    // Each vertex that is passed has all its neighbours but those along diagonals above it: the
    // passed ones lie in rows along the diagonals, and a contour runs along each side of a row.
    assert_eq!(crossed.contours(), 2 * 64);
}

#[test]
fn the_longest_contour_of_a_double_cone() {
    let mesh = bipyramid(32_766, 1_000_000, 1_000_000);
    let upper = layer(Given::new(mesh.clone()).at(400_000));
    assert_eq!(upper.ends, [32_766]);
    let middle = layer(Given::new(mesh));
    assert_eq!(middle.ends, [32_766]);
}
