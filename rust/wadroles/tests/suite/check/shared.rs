//! Edges shared by several sheets, worked by hand.

use crate::harness::{agree, assert_answer, Answer, Case};
use crate::inputs::{part_p, two_cubes_crossed, two_on_an_edge, PAIRING_P};
use crate::operations::{Check, Given};
use meshes::sheets::{flaps, two_cubes};
use meshes::{Mesh, Triangle};

fn exact(mesh: Mesh) -> Case<Check> {
    Case::exact(Given::bare(mesh))
}

/// The pairing that the product writes.
#[track_caller]
fn pairing(mesh: Mesh) -> Vec<u32> {
    let mut case = exact(mesh);
    assert_eq!(agree(&mut case), Ok(()));
    case.tables.pairing.view().to_vec()
}

/// Part P with more triangles, and with vertices 4 and 5.
fn with_triangles(triangles: &[Triangle]) -> Mesh {
    let mut mesh = part_p().mesh;
    mesh.coords.extend([0, -10, 0, 0, 0, -10]);
    mesh.corners.extend(triangles.concat());
    mesh
}

/// Three flaps on the edge from 0 to 1, first one side of each and then the other, the last first.
fn three_flaps() -> Mesh {
    let sides = [
        [0, 1, 2],
        [0, 1, 3],
        [0, 1, 4],
        [1, 0, 4],
        [1, 0, 3],
        [1, 0, 2],
    ];
    Mesh {
        corners: sides.concat(),
        ..flaps(3, 10)
    }
}

/// The meshes of this file, each with its answer.
pub fn worked() -> Vec<(Mesh, Answer<()>)> {
    let mut worked = vec![
        (two_on_an_edge(), Ok(())),
        (two_cubes(10), Ok(())),
        (two_cubes_crossed(), Ok(())),
        (flaps(3, 10), Ok(())),
        (three_flaps(), Ok(())),
    ];
    let refused = uneven().into_iter();
    worked.extend(refused.map(|(triangles, place)| (with_triangles(triangles), Err((6, place)))));
    worked
}

/// Triangles after those of part P, and the least corner that then finds no partner.
fn uneven() -> [(&'static [Triangle], u64); 7] {
    [
        // The edge from 1 to 0 twice and that from 0 to 1 once, or the other way round.
        (&[[1, 0, 4]], 12),
        (&[[0, 1, 4]], 12),
        // Triangle 0 twice and three times.
        (&[[2, 1, 0]], 12),
        (&[[0, 2, 1], [0, 2, 1]], 12),
        // Three times, and once more the other way: the third is left over.
        (&[[0, 2, 1], [0, 2, 1], [0, 1, 2]], 15),
        (&[[0, 1, 2], [0, 2, 1], [0, 2, 1]], 18),
        // Two that are closed, and one sheet more.
        (&[[0, 4, 1], [0, 1, 5], [0, 5, 4], [1, 4, 5], [5, 4, 1]], 24),
    ]
}

#[test]
fn a_second_tetrahedron_on_an_edge_is_paired_by_corner_order() {
    let pairing = pairing(two_on_an_edge());
    assert_eq!(pairing[..12], PAIRING_P);
    let second = [20, 21, 15, 14, 23, 18, 17, 22, 12, 13, 19, 16];
    assert_eq!(pairing[12..], second);
}

#[test]
fn triangles_that_change_places_change_partners() {
    // The triangles from 0 to 1 of both tetrahedra.
    let mut mesh = two_on_an_edge();
    mesh.triangle_mut(1).copy_from_slice(&[0, 1, 5]);
    mesh.triangle_mut(5).copy_from_slice(&[0, 1, 3]);
    let pairing = pairing(mesh);
    assert_eq!([2, 3, 14, 15].map(|c| pairing[c]), [3, 2, 15, 14]);
    assert_eq!([4, 5, 16, 17].map(|c| pairing[c]), [23, 18, 11, 6]);
}

#[test]
fn they_pass_or_are_refused_at_the_least_corner_without_a_partner() {
    for (mesh, answer) in worked() {
        let mut case = exact(mesh);
        assert_eq!(agree(&mut case), answer, "{case:?}");
        if answer.is_err() {
            assert!(case.tables.pairing.view().iter().all(|&entry| entry == 0));
            assert!(case.tables.order.view().iter().all(|&entry| entry == 0));
        }
    }
}

#[test]
fn two_cubes_on_an_edge_are_paired_by_corner_order() {
    let mesh = two_cubes(10);
    assert_eq!((mesh.vertex_count(), mesh.triangle_count()), (14, 24));
    let edges: Vec<_> = mesh.edges().collect();
    assert_eq!([31, 60].map(|c| edges[c]), [(3, 7); 2]);
    assert_eq!([22, 53].map(|c| edges[c]), [(7, 3); 2]);
    let pairing = pairing(mesh);
    assert_eq!([31, 60, 22, 53].map(|c| pairing[c]), [22, 53, 31, 60]);
    // All other partners are of the same cube too.
    let (first, second) = pairing.split_at(36);
    assert!(first.iter().all(|&partner| partner < 36));
    assert!(second.iter().all(|&partner| partner >= 36));
}

#[test]
fn two_cubes_with_triangles_in_another_order_are_paired_across() {
    let mesh = two_cubes_crossed();
    let edges: Vec<_> = mesh.edges().collect();
    assert_eq!([31, 60].map(|c| edges[c]), [(3, 7); 2]);
    assert_eq!([23, 52].map(|c| edges[c]), [(7, 3); 2]);
    let pairing = pairing(mesh);
    assert_eq!([31, 60, 23, 52].map(|c| pairing[c]), [23, 52, 31, 60]);
}

#[test]
fn flaps_are_paired_by_corner_order() {
    let in_order = [3, 5, 4, 0, 2, 1, 9, 11, 10, 6, 8, 7, 15, 17, 16, 12, 14, 13];
    assert_eq!(pairing(flaps(3, 10)), in_order);
    let last_first = [9, 17, 16, 12, 14, 13, 15, 11, 10, 0, 8, 7, 3, 5, 4, 6, 2, 1];
    assert_eq!(pairing(three_flaps()), last_first);
}

#[test]
fn tables_too_short_are_refused_before() {
    let lent = |lengths: [usize; 2]| Case::<Check>::lent(Given::bare(two_cubes(10)), lengths);
    assert_answer(&lent([71, 14]), Err((9, 0)));
    assert_answer(&lent([72, 13]), Err((9, 0)));
    assert_answer(&lent([72, 14]), Ok(()));
    assert_answer(&lent([80, 20]), Ok(()));
}
