//! Cases worked by hand.

use crate::harness::{agree, assert_answer, Case};
use crate::inputs::{boxes_touching_along_an_edge, octahedra, part_p, PAIRING_P};
use crate::operations::{Check, Given};
use meshes::shapes::pillow;
use meshes::Mesh;

fn exact(mesh: Mesh) -> Case<Check> {
    Case::exact(Given::bare(mesh))
}

/// Part P after a change, with tables as long as needed.
fn changed(change: impl FnOnce(&mut Mesh)) -> Case<Check> {
    let mut mesh = part_p().mesh;
    change(&mut mesh);
    exact(mesh)
}

/// Vertices at these heights, and no triangles.
fn vertices_at(heights: &[i32]) -> Mesh {
    let points: Vec<[i32; 3]> = heights.iter().map(|&z| [0, 0, z]).collect();
    Mesh::new(&points, &[])
}

/// Pairing and order as the product writes them.
fn written(mesh: Mesh) -> (Vec<u32>, Vec<u32>) {
    let mut case = exact(mesh);
    assert_eq!(agree(&mut case), Ok(()));
    let tables = case.tables;
    (tables.pairing.view().to_vec(), tables.order.view().to_vec())
}

#[test]
fn part_p_is_paired_as_in_the_document() {
    let (pairing, order) = written(part_p().mesh);
    assert_eq!(pairing, PAIRING_P);
    assert_eq!(order, [0, 1, 2, 3]);
}

#[test]
fn part_p_without_triangle_3_is_open() {
    let mut case = changed(|p| p.remove_triangle(3));
    assert_eq!(agree(&mut case), Err((6, 1)));
    assert_eq!(case.tables.pairing.view(), [0; 9]);
    assert_eq!(case.tables.order.view(), [0; 4]);
}

#[test]
fn the_least_closed_mesh_is_paired() {
    let (pairing, order) = written(pillow(10));
    assert_eq!(pairing, [5, 4, 3, 2, 1, 0]);
    assert_eq!(order, [0, 1, 2]);
}

#[test]
fn none_of_either_passes() {
    assert_answer(&exact(Mesh::default()), Ok(()));
    let longer = Case::<Check>::lent(Given::default(), [4, 5]);
    assert_answer(&longer, Ok(()));
}

#[test]
fn vertices_without_triangles_are_ordered_by_z_and_then_by_number() {
    let order = |heights: &[i32]| written(vertices_at(heights)).1;
    assert_eq!(order(&[7]), [0]);
    assert_eq!(order(&[3, -1, 3, -5, 0, -1]), [3, 1, 5, 4, 0, 2]);
    assert_eq!(order(&[-4, -4, -4]), [0, 1, 2]);
    assert_eq!(order(&[1_048_576, 0, -1_048_576]), [2, 1, 0]);
}

#[test]
fn only_z_orders_the_vertices() {
    let points = [[9, 9, 1], [-9, 9, 0], [0, -9, 1]];
    assert_eq!(written(Mesh::new(&points, &[])).1, [1, 0, 2]);
}

#[test]
fn tables_need_an_entry_per_corner_and_per_vertex() {
    let lent = |lengths: [usize; 2]| Case::<Check>::lent(part_p(), lengths);
    for lengths in [[11, 4], [12, 3], [11, 3], [0, 4], [12, 0], [0, 0], [4, 12]] {
        assert_answer(&lent(lengths), Err((9, 0)));
    }
    for lengths in [[12, 4], [13, 4], [12, 5], [40, 40]] {
        assert_answer(&lent(lengths), Ok(()));
    }
    let one_vertex = Given::bare(vertices_at(&[0]));
    assert_answer(&Case::<Check>::lent(one_vertex, [9, 0]), Err((9, 0)));
}

#[test]
fn a_triangle_named_twice_is_refused_at_its_second_occurrence() {
    assert_answer(&changed(|p| p.insert_triangle(4, [2, 3, 1])), Err((6, 12)));
    assert_answer(&changed(|p| p.insert_triangle(0, [3, 1, 2])), Err((6, 12)));
}

#[test]
fn a_flipped_triangle_finds_no_partners() {
    assert_answer(&changed(|p| p.flip_triangle(1)), Err((6, 2)));
    assert_answer(&changed(|p| p.flip_triangle(3)), Err((6, 1)));
}

#[test]
fn shells_at_the_same_place_with_their_own_vertices_pass() {
    let (pairing, _) = written(octahedra(10, 10));
    let (first, second) = pairing.split_at(24);
    assert!(first
        .iter()
        .map(|corner| corner + 24)
        .eq(second.iter().copied()));
}

#[test]
fn shells_sharing_one_vertex_pass() {
    let mut mesh = octahedra(10, 10);
    mesh.weld(5, 10);
    assert_answer(&exact(mesh), Ok(()));
}

#[test]
fn boxes_touching_along_an_edge_with_their_own_vertices_pass() {
    assert_answer(&exact(boxes_touching_along_an_edge()), Ok(()));
}
