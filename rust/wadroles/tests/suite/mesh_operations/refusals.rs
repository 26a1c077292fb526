//! Every numbered refusal, with its place, of each operation on a mesh.

use super::OnMesh;
use crate::harness::{assert_refusals, Case, Refused, Tables};
use crate::inputs::part_p;
use crate::operations::{AllLayersIn, Check, Cut, Given, Layer, Start, Step};

type Change = fn(&mut Given);

/// Changes of part P, each with the number and the place of a refusal. Those of 6 are for Check, which
/// has no pairing to test.
const CHANGES: [(Change, u32, u64); 34] = [
    (|p| p.mesh.coords.push(0), 1, 0),
    (|p| p.mesh.coords.truncate(11), 1, 0),
    (|p| p.mesh.corners.extend([0, 0]), 1, 0),
    (|p| p.mesh.corners.truncate(11), 1, 0),
    (|p| p.mesh.coords.resize(3 * 32_769, 0), 1, 0),
    (|p| p.mesh.corners.resize(3 * 65_537, 0), 1, 0),
    (|p| p.mesh.coords[0] = -1_048_577, 2, 0),
    (|p| p.mesh.coords[5] = 1_048_577, 2, 5),
    (|p| p.mesh.coords[11] = i32::MIN, 2, 11),
    (|p| p.mesh.corners[0] = 4, 3, 0),
    (|p| p.mesh.corners[7] = u32::MAX, 3, 7),
    (|p| p.mesh.corners[2] = 0, 4, 0),
    (|p| p.mesh.corners[8] = 0, 4, 6),
    (|p| p.mesh.flip_triangle(0), 6, 0),
    (|p| p.mesh.flip_triangle(1), 6, 2),
    (|p| p.mesh.corners[9..].copy_from_slice(&[0, 2, 1]), 6, 1),
    (
        |p| p.mesh.corners[3..9].copy_from_slice(&[0, 1, 2, 0, 2, 1]),
        6,
        6,
    ),
    (|p| p.mesh.remove_triangle(0), 6, 0),
    (|p| p.mesh.remove_triangle(3), 6, 1),
    (|p| p.pairing[0] = 12, 7, 0),
    (|p| p.pairing[11] = 11, 7, 4),
    (|p| p.pairing[10] = 10, 7, 7),
    (|p| p.pairing.truncate(11), 7, 4),
    (|p| p.pairing.clear(), 7, 0),
    (|p| p.mesh.flip_triangle(1), 7, 2),
    (|p| p.order[0] = 1, 8, 0),
    (|p| p.order.swap(1, 2), 8, 1),
    (|p| p.order.swap(2, 3), 8, 2),
    (|p| p.order[3] = 3_000_000_000, 8, 3),
    (|p| p.order.truncate(3), 8, 3),
    (|p| p.mesh.coords[2] = 1, 8, 0),
    (|p| p.mesh.coords[8] = -1, 8, 0),
    (|p| p.passed = 5, 10, 0),
    (|p| p.passed = usize::MAX, 10, 0),
];

/// Part P with two vertices passed: ring 0, 6, 4, 9.
fn right<O: OnMesh>() -> Case<O> {
    Case::exact(part_p().with_passed(2))
}

/// A change of the input.
fn input<O: OnMesh>((change, number, place): (Change, u32, u64)) -> Refused<O> {
    (Box::new(move |case| change(&mut case.input)), number, place)
}

/// The changes that concern the operation, and each table too short: by one, by half, and empty.
fn common<O: OnMesh>() -> Vec<Refused<O>> {
    let concerns = |change: &(Change, u32, u64)| O::REFUSALS.contains(&change.1);
    let mut all: Vec<Refused<O>> = CHANGES.into_iter().filter(concerns).map(input).collect();
    for (table, needed) in right::<O>().tables.lengths().into_iter().enumerate() {
        for length in [needed - 1, needed / 2, 0] {
            let (number, place) = O::short(table, length);
            let shorten = move |case: &mut Case<O>| case.tables.shorten(table, length);
            all.push((Box::new(shorten), number, place));
        }
    }
    all
}

#[test]
fn every_refusal_of_check_start_cut_and_step() {
    assert_refusals::<Check>(right, &common());
    assert_refusals::<Start>(right, &common());
    assert_refusals::<Cut>(right, &common());
    assert_refusals::<Step>(right, &common());
}

#[test]
fn every_refusal_of_layer() {
    let mut all = common::<Layer>();
    for (corner, entry) in [(0, 4), (0, u32::MAX), (1, 0), (9, 4), (11, 12)] {
        let write = move |case: &mut Case<Layer>| case.tables.ring.table()[corner] = entry;
        all.push((Box::new(write), 11, corner as u64));
    }
    let changes: [(Change, u32, u64); 7] = [
        (|p| p.passed = 3, 11, 0),
        (|p| p.passed = 1, 11, 3),
        (|p| p.passed = 0, 11, 0),
        (|p| p.passed = 4, 11, 0),
        (|p| p.height = i32::MIN, 12, 0),
        (|p| p.height = -1, 12, 0),
        (|p| p.height = 0, 12, 0),
    ];
    all.extend(changes.map(input));
    assert_refusals(right, &all);
}

fn refusals_of_all_layers<const CLEAN: bool>() {
    let mut all = common::<AllLayersIn<CLEAN>>();
    let changes: [(Change, u32, u64); 6] = [
        (|p| p.heights = (0..4_097).collect(), 1, 0),
        (|p| p.heights[1] = 0, 12, 1),
        (|p| p.heights[2] = -3, 12, 2),
        (|p| p.heights[3] = 10, 12, 3),
        (|p| p.heights.push(11), 12, 4),
        (|p| p.heights.push(12), 14, 0),
    ];
    all.extend(changes.map(input));
    assert_refusals(right, &all).require_places(12);
}

#[test]
fn every_refusal_of_all_layers() {
    refusals_of_all_layers::<false>();
}

#[test]
fn every_refusal_of_all_layers_clean() {
    refusals_of_all_layers::<true>();
}
