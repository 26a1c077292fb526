//! Vertices of the greatest degree, and edges of the most sheets.

use crate::harness::{agree, assert_answer, Answer, Case};
use crate::inputs::checked;
use crate::operations::{Check, Cut, Given};
use meshes::shapes::bipyramid;
use meshes::sheets::{fan, flaps};
use meshes::{Mesh, Random, Triangle, MAX_VERTICES};

#[test]
fn apexes_of_the_greatest_degree_pass() {
    let mut mesh = bipyramid(32_766, 1_000_000, 1_000_000);
    assert_eq!(mesh.vertex_count(), MAX_VERTICES);
    assert_answer(&Case::<Check>::exact(Given::bare(mesh.clone())), Ok(()));
    mesh.shuffle(&mut Random::new(1));
    assert_answer(&Case::<Check>::exact(Given::bare(mesh)), Ok(()));
}

/// How often an edge is used each way.
const SHEETS: u32 = 30_000;

#[track_caller]
fn assert_checked(mesh: &Mesh, answer: Answer<()>) {
    assert_answer(&Case::<Check>::exact(Given::bare(mesh.clone())), answer);
}

/// The contours and points of a cut with the pairing that Check makes.
#[track_caller]
fn counts(mesh: &Mesh, height: i32) -> (usize, usize) {
    let given = checked(mesh.clone()).at(height);
    agree(&mut Case::<Cut>::exact(given)).unwrap()
}

/// First one side of each flap and then the other, the last first.
fn last_first() -> Mesh {
    let tips = 2..SHEETS + 2;
    let there = tips.clone().map(|tip| [0, 1, tip]);
    let back = tips.rev().map(|tip| [1, 0, tip]);
    let sides: Vec<Triangle> = there.chain(back).collect();
    Mesh {
        corners: sides.concat(),
        ..flaps(SHEETS, 1_000_000)
    }
}

#[test]
fn an_edge_of_30_000_flaps_is_paired_in_order() {
    let mesh = flaps(SHEETS, 1_000_000);
    assert_checked(&mesh, Ok(()));
    let pairing = checked(mesh.clone()).pairing;
    let expected = (0..SHEETS).flat_map(|i| [3, 5, 4, 0, 2, 1].map(|corner| 6 * i + corner));
    assert!(pairing.into_iter().eq(expected));
    // Each flap is a contour of two points.
    assert_eq!(counts(&mesh, 500_000), (30_000, 60_000));
}

#[test]
fn an_edge_of_30_000_flaps_is_paired_across() {
    let mesh = last_first();
    assert_checked(&mesh, Ok(()));
    let pairing = checked(mesh.clone()).pairing;
    for i in 0..SHEETS {
        let (there, back) = (3 * i, 3 * (SHEETS + i));
        assert_eq!(pairing[there as usize], back);
        assert_eq!(pairing[back as usize], there);
    }
    // The first flap and the last are a contour of four points, and so on.
    assert_eq!(counts(&mesh, 500_000), (15_000, 60_000));
}

#[test]
fn an_edge_of_30_000_flaps_is_paired_in_any_order() {
    let mut mesh = flaps(SHEETS, 1_000_000);
    mesh.shuffle(&mut Random::new(1));
    assert_checked(&mesh, Ok(()));
    assert_eq!(counts(&mesh, 500_000).1, 60_000);
}

#[test]
fn the_most_sheets_pass() {
    for mesh in [flaps(32_766, 1_000_000), fan(16_383, 1_000_000)] {
        assert_eq!(mesh.vertex_count(), MAX_VERTICES);
        assert_checked(&mesh, Ok(()));
    }
    // Of each tetrahedron three edges are crossed.
    let counts = counts(&fan(16_383, 1_000_000), 500_000);
    assert_eq!(counts, (16_383, 3 * 16_383));
}

#[test]
fn one_sheet_of_30_000_too_few_or_too_many_is_refused() {
    let mut too_few = flaps(SHEETS, 1_000_000);
    too_few.remove_triangle(2 * SHEETS as usize - 1);
    assert_checked(&too_few, Err((6, 6 * 29_999)));
    let mut too_many = flaps(SHEETS, 1_000_000);
    too_many.insert_triangle(0, [0, 1, 2]);
    assert_checked(&too_many, Err((6, 4)));
    // The edge of the flaps alone is used once more: the last corner of it is left over.
    let mut mesh = last_first();
    mesh.coords.extend([0, 0, 0]);
    let tip = SHEETS + 2;
    mesh.insert_triangle(2 * SHEETS as usize, [1, 0, tip]);
    assert_checked(&mesh, Err((6, 6 * 30_000)));
}
