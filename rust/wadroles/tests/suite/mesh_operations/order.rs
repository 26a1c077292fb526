//! Two faults at once: the earlier refusal wins wherever the faults lie, and of two places the least
//! is named.

use super::OnMesh;
use crate::harness::{assert_earlier_wins, assert_least_named, Case, Tables};
use crate::inputs::octahedra;
use crate::operations::{
    AllLayers, AllLayersClean, AllLayersIn, Check, Cut, Given, Layer, Start, Step,
};

const SHELL_VERTICES: usize = 6;
const SHELL_TRIANGLES: usize = 8;
const SHELL_CORNERS: usize = 24;

/// Two octahedra with the lowest five vertices passed.
fn two_shells<O: OnMesh>() -> Case<O> {
    let given = Given::new(octahedra(10, 20)).with_passed(5).at(3);
    Case::exact(given.over(&[-15, -5, 0, 3, 8, 13]))
}

/// Puts the fault of a refusal into shell 0 or 1, by the way. Each fault has triangles of its own.
fn spoil_given(given: &mut Given, refusal: u32, way: usize) {
    let shell = way % 2;
    let (first_corner, first_triangle) = (SHELL_CORNERS * shell, SHELL_TRIANGLES * shell);
    let mesh = &mut given.mesh;
    match refusal {
        1 => mesh.coords.push(0),
        2 => mesh.coords[3 * SHELL_VERTICES * shell + 4] = 1_048_577,
        3 => mesh.corners[first_corner + 1] = 12,
        4 => mesh.corners[first_corner + 5] = mesh.corners[first_corner + 3],
        6 => mesh.remove_triangle(first_triangle + 5),
        7 => given.pairing[first_corner + 20] = 48,
        8 => given.order[SHELL_VERTICES * shell + 2] = 12,
        10 => given.passed = 13 + shell,
        _ => panic!("no fault for {refusal}"),
    }
}

/// Refusal 9 is a fault of a table, another one by each way. It is so short that it still is where a
/// triangle is missing.
fn spoil<O: OnMesh>(case: &mut Case<O>, refusal: u32, way: usize) {
    match refusal {
        9 => {
            let table = way % O::Tables::COUNT;
            let length = case.tables.lengths()[table];
            case.tables.shorten(table, length - 4);
        }
        _ => spoil_given(&mut case.input, refusal, way),
    }
}

/// The ring table is no fault of 9 here.
fn spoil_rings(case: &mut Case<Layer>, refusal: u32, way: usize) {
    match refusal {
        9 => spoil(case, 9, way % 4),
        11 => case.tables.shorten(4, SHELL_CORNERS * (way % 2) + 20),
        12 => case.input.height = -10,
        _ => spoil(case, refusal, way),
    }
}

/// Heights are too many or fail to rise, and the output is too short.
fn spoil_heights<const CLEAN: bool>(case: &mut Case<AllLayersIn<CLEAN>>, refusal: u32, way: usize) {
    let heights = &mut case.input.heights;
    match refusal {
        1 if way.is_multiple_of(2) => heights.splice(..0, -5_000..0).for_each(drop),
        9 => spoil(case, 9, way % 5),
        12 => {
            let place = heights.len() - 4 + 2 * (way % 2);
            heights[place] = heights[place - 1];
        }
        14 => {
            let length = case.tables.lengths()[5];
            case.tables.shorten(5, (length - 1) * (way % 2));
        }
        _ => spoil(case, refusal, way),
    }
}

#[test]
fn the_earlier_refusal_wins_wherever_the_faults_lie() {
    assert_earlier_wins::<Check>(two_shells, 2, spoil);
    assert_earlier_wins::<Cut>(two_shells, 4, spoil);
    assert_earlier_wins::<Start>(two_shells, 2, spoil);
    assert_earlier_wins::<Step>(two_shells, 2, |case, refusal, way| match refusal {
        11 => case.tables.shorten(0, SHELL_CORNERS * way + 20),
        _ => spoil(case, refusal, way),
    });
    assert_earlier_wins::<Layer>(two_shells, 4, spoil_rings);
    assert_earlier_wins::<AllLayers>(two_shells, 5, spoil_heights);
    assert_earlier_wins::<AllLayersClean>(two_shells, 5, spoil_heights);
}

#[test]
fn the_least_of_two_places_is_named() {
    let pair = two_shells::<Cut>().input.pairing[20];
    let of_pair = (7, pair.min(20).into());
    let of_mesh = [(2, 4), (3, 1), (4, 3)];
    let with = |more: &[(u32, u64)]| [&of_mesh[..], more].concat();
    assert_least_named::<Check>(two_shells, &with(&[(6, 11)]), spoil);
    assert_least_named::<Cut>(two_shells, &with(&[of_pair]), spoil);
    assert_least_named::<Step>(two_shells, &with(&[of_pair, (8, 2)]), spoil);
    assert_least_named::<Layer>(two_shells, &with(&[of_pair, (8, 2)]), spoil);
    let of_files = with(&[of_pair, (8, 2), (12, 2)]);
    assert_least_named::<AllLayers>(two_shells, &of_files, spoil_heights);
    assert_least_named::<AllLayersClean>(two_shells, &of_files, spoil_heights);
    assert_least_named::<Layer>(two_shells, &[(11, 7)], |case, _, way| {
        let ring = case.tables.ring.table();
        for corner in [[40, 7], [30, 41]][way] {
            ring[corner] = 99;
        }
    });
}
