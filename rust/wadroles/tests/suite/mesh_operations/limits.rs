//! Counts at their limits and one above, and the last places of the largest mesh.

use super::{of_each, OnMesh};
use crate::harness::{agree, assert_answer, Answer, Case, Tables};
use crate::inputs::largest_torus;
use crate::operations::{AllLayers, AllLayersClean, Check, Cut, Given, Layer, Start, Step};
use meshes::{Mesh, Random, MAX_TRIANGLES, MAX_VERTICES};
use std::fmt::Debug;

const CORNERS: usize = 3 * MAX_TRIANGLES;

/// At heights that no vertex of the largest torus has.
fn right(mesh: Mesh) -> Given {
    Given::new(mesh).at(5).over(&[-299_999, 5])
}

#[track_caller]
fn assert_passes<V: Debug>(answer: Answer<V>) {
    assert!(answer.is_ok(), "{answer:?}");
}

fn both_limits<O: OnMesh>() {
    let mut mesh = largest_torus();
    assert_eq!(mesh.vertex_count(), MAX_VERTICES);
    assert_eq!(mesh.triangle_count(), MAX_TRIANGLES);
    assert_passes(agree(&mut Case::<O>::exact(right(mesh.clone()))));
    mesh.shuffle(&mut Random::new(1));
    let exact = Case::<O>::exact(right(mesh));
    assert_passes(agree(&mut exact.clone()));
    let longer: Vec<usize> = exact.tables.lengths().into_iter().map(|l| l + 7).collect();
    assert_passes(agree(&mut Case::<O>::lent(exact.input, longer)));
}

#[test]
fn counts_at_both_limits_pass() {
    of_each!(both_limits: Check, Cut, Start, Step, Layer, AllLayers, AllLayersClean);
}

fn unused_vertices<O: OnMesh>() {
    let unused = |count: usize| {
        let mesh = Mesh {
            coords: vec![-7; 3 * count],
            corners: Vec::new(),
        };
        Case::<O>::exact(right(mesh))
    };
    assert_passes(agree(&mut unused(MAX_VERTICES)));
    assert_answer(&unused(MAX_VERTICES + 1), Err((1, 0)));
}

#[test]
fn unused_vertices_pass_up_to_the_limit() {
    of_each!(unused_vertices: Check, Cut, Start, Step, Layer, AllLayers, AllLayersClean);
}

fn one_too_many<O: OnMesh>() {
    let mut more_vertices = largest_torus();
    more_vertices.coords.extend([0; 3]);
    let mut more_triangles = largest_torus();
    more_triangles.corners.extend([0, 1, 2]);
    for mesh in [more_vertices, more_triangles] {
        let given = right(mesh);
        assert_answer(&Case::<O>::exact(given.clone()), Err((1, 0)));
        let no_tables = vec![0; O::Tables::COUNT];
        assert_answer(&Case::<O>::lent(given, no_tables), Err((1, 0)));
    }
}

#[test]
fn one_vertex_or_triangle_too_many_is_refused() {
    of_each!(one_too_many: Check, Cut, Start, Step, Layer, AllLayers, AllLayersClean);
}

fn one_too_short<O: OnMesh>() {
    let exact = Case::<O>::exact(right(largest_torus()));
    for (table, length) in exact.tables.lengths().into_iter().enumerate() {
        let refusal = O::short(table, length - 1);
        assert_answer(&exact.clone().lacking(table, 1), Err(refusal));
    }
}

#[test]
fn tables_one_too_short_for_the_largest_mesh_are_refused() {
    of_each!(one_too_short: Check, Cut, Start, Step, Layer, AllLayers, AllLayersClean);
}

type Damaging = fn(&mut Given);

/// Damage at the last places of the largest mesh, each with number and place. A wrong entry of the
/// pairing is noticed from the other side, if that comes before.
fn damage(right: &Given) -> [(Damaging, u32, usize); 7] {
    const CORNER: usize = CORNERS - 1;
    const VERTEX: usize = MAX_VERTICES - 1;
    const COORDINATE: usize = 3 * VERTEX + 2;
    let pair = right.pairing[CORNER] as usize;
    assert!(pair < CORNER);
    [
        (|g| g.mesh.coords[COORDINATE] = -1_048_577, 2, COORDINATE),
        (|g| g.mesh.corners[CORNER] = 32_768, 3, CORNER),
        (
            |g| g.mesh.corners[CORNER] = g.mesh.corners[CORNER - 2],
            4,
            CORNER - 2,
        ),
        (|g| g.pairing[CORNER] = 196_608, 7, pair),
        (|g| g.pairing.truncate(CORNER), 7, pair),
        (|g| g.order[VERTEX] = 32_768, 8, VERTEX),
        (|g| g.order.truncate(VERTEX), 8, VERTEX),
    ]
}

fn last_places<O: OnMesh>() {
    let right = right(largest_torus());
    for (damage, number, place) in damage(&right) {
        if O::REFUSALS.contains(&number) {
            let mut given = right.clone();
            damage(&mut given);
            assert_answer(&Case::<O>::exact(given), Err((number, place as u64)));
        }
    }
}

#[test]
fn the_last_places_of_the_largest_mesh_are_tested() {
    of_each!(last_places: Check, Cut, Step, Layer, AllLayers, AllLayersClean);
}

#[test]
fn the_last_ring_entry_of_the_largest_mesh_is_tested() {
    let mut case = Case::<Layer>::exact(right(largest_torus()));
    case.tables.ring.table()[CORNERS - 1] = 0;
    assert_answer(&case, Err((11, CORNERS as u64 - 1)));
}
