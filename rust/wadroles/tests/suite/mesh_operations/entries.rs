//! Every entry of mesh, pairing and order.

use super::{changed_p, of_each, OnMesh};
use crate::harness::{agree, assert_answer, Case};
use crate::inputs::{part_p, PAIRING_P};
use crate::operations::{AllLayers, AllLayersClean, Check, Cut, Given, Layer, Start, Step};
use meshes::shapes::{octahedron, pillow};

/// Asserts that part P after a change is refused.
#[track_caller]
fn assert_refused<O: OnMesh>(change: impl FnOnce(&mut Given), number: u32, place: usize) {
    assert_answer(&changed_p::<O>(change), Err((number, place as u64)));
}

fn lengths<O: OnMesh>() {
    for extra in 1..3 {
        assert_refused::<O>(|p| p.mesh.coords.extend(vec![0; extra]), 1, 0);
        assert_refused::<O>(|p| p.mesh.corners.extend(vec![0; extra]), 1, 0);
        assert_refused::<O>(|p| p.mesh.coords.truncate(extra), 1, 0);
        assert_refused::<O>(|p| p.mesh.corners.truncate(extra), 1, 0);
    }
}

#[test]
fn lengths_that_are_no_multiple_of_three_are_refused() {
    of_each!(lengths: Check, Cut, Start, Step, Layer, AllLayers, AllLayersClean);
}

fn coordinates<O: OnMesh>() {
    for position in 0..12 {
        for value in [-1_048_576, 1_048_576] {
            let mut mesh = part_p().mesh;
            mesh.coords[position] = value;
            let given = Given::new(mesh).at(5).over(&[0, 5, 10, 11]);
            let answer = agree(&mut Case::<O>::exact(given));
            assert!(answer.is_ok(), "{}, {position}: {answer:?}", O::NAME);
        }
        for value in [i32::MIN, -1_048_577, 1_048_577, i32::MAX] {
            assert_refused::<O>(|p| p.mesh.coords[position] = value, 2, position);
        }
    }
}

#[test]
fn coordinates_pass_up_to_the_limit_at_every_position() {
    of_each!(coordinates: Check, Cut, Step, Layer, AllLayers, AllLayersClean);
}

fn corners<O: OnMesh>() {
    for corner in 0..12 {
        for name in [4, 5, 32_768, 65_536, 1 << 31, u32::MAX] {
            assert_refused::<O>(|p| p.mesh.corners[corner] = name, 3, corner);
        }
    }
}

#[test]
fn every_corner_must_name_a_vertex() {
    of_each!(corners: Check, Cut, Step, Layer, AllLayers, AllLayersClean);
}

fn triangles<O: OnMesh>() {
    for triangle in 0..4 {
        for corner in 0..3 {
            let repeat = |p: &mut Given| {
                let corners = p.mesh.triangle_mut(triangle);
                corners[corner] = corners[(corner + 1) % 3];
            };
            assert_refused::<O>(repeat, 4, 3 * triangle);
        }
    }
}

#[test]
fn a_vertex_named_twice_is_refused_at_the_first_corner_of_the_triangle() {
    of_each!(triangles: Check, Cut, Step, Layer, AllLayers, AllLayersClean);
}

fn no_vertices<O: OnMesh>() {
    assert_refused::<O>(|p| p.mesh.coords.clear(), 3, 0);
}

#[test]
fn triangles_without_vertices_name_none() {
    of_each!(no_vertices: Check, Cut, Step, Layer, AllLayers, AllLayersClean);
}

fn wrong_pairs<O: OnMesh>() {
    for (corner, pair) in PAIRING_P.into_iter().enumerate() {
        let others = (0..14).filter(|&entry| entry != pair);
        for wrong in others.chain([32_768, 1 << 31, u32::MAX]) {
            let place = corner.min(pair as usize);
            assert_refused::<O>(|p| p.pairing[corner] = wrong, 7, place);
        }
    }
}

#[test]
fn a_wrong_entry_is_refused_at_its_corner_or_its_partner_if_that_is_less() {
    of_each!(wrong_pairs: Cut, Step, Layer, AllLayers, AllLayersClean);
}

fn missing_pairs<O: OnMesh>() {
    // The least corner that is missing or has a partner that is.
    for (length, place) in [
        (11, 4),
        (10, 4),
        (9, 1),
        (8, 0),
        (7, 0),
        (5, 0),
        (1, 0),
        (0, 0),
    ] {
        assert_refused::<O>(|p| p.pairing.truncate(length), 7, place);
    }
}

#[test]
fn a_missing_entry_is_refused_and_so_is_what_is_paired_with_it() {
    of_each!(missing_pairs: Cut, Step, Layer, AllLayers, AllLayersClean);
}

fn missing_pair_of_corner_0<O: OnMesh>() {
    let mut given = Given::new(pillow(10)).at(5).over(&[5]);
    assert_eq!(given.pairing, [5, 4, 3, 2, 1, 0]);
    given.pairing.truncate(5);
    assert_answer(&Case::<O>::exact(given), Err((7, 0)));
}

#[test]
fn a_missing_entry_is_not_read_as_corner_0() {
    of_each!(missing_pair_of_corner_0: Cut, Step, Layer, AllLayers, AllLayersClean);
}

fn flipped<O: OnMesh>() {
    assert_refused::<O>(|p| p.mesh.flip_triangle(1), 7, 2);
}

#[test]
fn a_flipped_triangle_lacks_the_reverse_edges() {
    of_each!(flipped: Cut, Step, Layer, AllLayers, AllLayersClean);
}

fn orders<O: OnMesh>() {
    let right = |passed| {
        Given::new(octahedron(10))
            .with_passed(passed)
            .at(11)
            .over(&[3])
    };
    for passed in [0, 3, 6] {
        for (position, vertex) in [4, 0, 1, 2, 3, 5].into_iter().enumerate() {
            let others = (0..7).chain([32_768, 1 << 31, u32::MAX]);
            for wrong in others.filter(|&other| other != vertex) {
                let mut given = right(passed);
                assert_eq!(given.order[position], vertex);
                given.order[position] = wrong;
                assert_answer(&Case::<O>::exact(given), Err((8, position as u64)));
            }
        }
        for length in 0..6 {
            let mut given = right(passed);
            given.order.truncate(length);
            assert_answer(&Case::<O>::exact(given), Err((8, length as u64)));
        }
    }
}

#[test]
fn an_order_must_be_right_at_every_position() {
    of_each!(orders: Step, Layer, AllLayers, AllLayersClean);
}

/// The answer where pairing and order have more entries than needed.
fn answer_with_more<O: OnMesh>(passed: usize, height: i32, beyond: u32) -> O::Values {
    let mut given = part_p().with_passed(passed).at(height);
    given.pairing.extend([beyond; 3]);
    given.order.extend([beyond; 2]);
    agree(&mut Case::<O>::exact(given)).unwrap()
}

#[test]
fn entries_beyond_those_needed_are_ignored() {
    for beyond in [0, 3, 12, u32::MAX] {
        assert_eq!(answer_with_more::<Cut>(0, 5, beyond), (1, 3));
        for passed in 0..4 {
            let stepped = answer_with_more::<Step>(passed, 5, beyond);
            assert_eq!(stepped, Some(passed + 1));
            let risen = answer_with_more::<Layer>(passed, 5, beyond);
            assert_eq!(risen, (3, 1, 3));
        }
        assert_eq!(answer_with_more::<Step>(4, 5, beyond), None);
        assert_eq!(answer_with_more::<Layer>(4, 11, beyond), (4, 0, 0));
        assert_eq!(answer_with_more::<AllLayers>(0, 5, beyond), 23);
        assert_eq!(answer_with_more::<AllLayersClean>(0, 5, beyond), 16);
    }
}
