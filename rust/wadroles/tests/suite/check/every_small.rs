//! Every corner table of a few triangles over a few vertices.

use crate::harness::{agree, Case, Tally};
use crate::operations::{Check, Given};
use meshes::{Mesh, Triangle};

/// All triangles over the names below `names`.
fn triangles(names: u32) -> Vec<Triangle> {
    (0..names)
        .flat_map(|a| (0..names).flat_map(move |b| (0..names).map(move |c| [a, b, c])))
        .collect()
}

fn names_no_vertex_twice([a, b, c]: &Triangle) -> bool {
    a != b && b != c && c != a
}

/// Compares the library with the oracle on every sequence of `count` of the triangles.
fn compare_all(points: &[[i32; 3]], choices: &[Triangle], count: u32, tally: &mut Tally) {
    let base = choices.len();
    for sequence in 0..base.pow(count) {
        let digits = (0..count).map(|digit| sequence / base.pow(digit) % base);
        let triangles: Vec<Triangle> = digits.map(|digit| choices[digit]).collect();
        let given = Given::bare(Mesh::new(points, &triangles));
        tally.add(&agree(&mut Case::<Check>::exact(given)));
    }
}

#[test]
fn every_two_triangles_with_right_and_wrong_names() {
    let points = [[0, 0, 3], [0, 0, -1], [0, 0, 3]];
    let mut tally = Tally::default();
    compare_all(&points, &triangles(4), 2, &mut tally);
    // A triangle of the three vertices in any sequence, and one the other way round.
    assert_eq!(tally.count(0), 6 * 3);
    tally.require(&[3, 4, 6], 10);
}

#[test]
fn every_four_or_fewer_triangles_over_four_vertices() {
    let points = [[0, 0, 3], [0, 0, -1], [0, 0, 3], [0, 0, 2]];
    let mut choices = triangles(4);
    choices.retain(names_no_vertex_twice);
    let mut tally = Tally::default();
    for count in 0..=4 {
        compare_all(&points, &choices, count, &mut tally);
    }
    // Even are: no triangles; two back to back, with 3 first corners for the second; the tetrahedron,
    // two ways round, in 4! sequences, with 3 first corners per triangle; and twice two back to back,
    // of one side in 6 sequences, or of two in 4!.
    let back_to_back = 24 * 3;
    let tetrahedra = 2 * 24 * 81;
    let twice_back_to_back = (4 * 6 + 6 * 24) * 81;
    assert_eq!(
        tally.count(0),
        1 + back_to_back + tetrahedra + twice_back_to_back
    );
    tally.require(&[6], 100);
}

#[test]
fn every_six_or_fewer_triangles_over_three_vertices() {
    let points = [[0, 0, 3], [0, 0, -1], [0, 0, 3]];
    let mut choices = triangles(3);
    choices.retain(names_no_vertex_twice);
    let mut tally = Tally::default();
    for count in 0..=6 {
        compare_all(&points, &choices, count, &mut tally);
    }
    // Half of them one way round, with 3 first corners per triangle.
    assert_eq!(tally.count(0), 1 + 2 * 9 + 6 * 81 + 20 * 729);
    tally.require(&[6], 100);
}
