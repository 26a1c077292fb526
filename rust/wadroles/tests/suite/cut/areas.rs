//! Areas of layers: of solids whose sections are known, and against a sum that needs no contours.

use super::layer::product_layer;
use crate::harness::Rounds;
use crate::inputs::{joined, random_mesh};
use crate::operations::Given;
use meshes::shapes::{bipyramid, cuboid, octahedron, tetrahedron, torus};
use meshes::{random_height, Mesh, Random};
use oracle::section_area;

fn areas(mesh: Mesh, height: i32) -> Vec<i64> {
    product_layer(Given::new(mesh).at(height)).areas
}

/// The mesh with every triangle turned round.
pub fn inside_out(mut mesh: Mesh) -> Mesh {
    (0..mesh.triangle_count()).for_each(|triangle| mesh.flip_triangle(triangle));
    mesh
}

/// Brings the mesh to some other place, and gives the distance upward.
fn displaced(mesh: &mut Mesh, random: &mut Random) -> i32 {
    let distances = [(); 3].map(|()| random.within(-500_000..=500_000));
    mesh.move_by(distances);
    mesh.shuffle(random);
    distances[2]
}

#[test]
fn tetrahedra_have_sections_of_their_own_shape() {
    let share = Rounds::one_in(100, "layers, areas of tetrahedra").share(|random| {
        let size = random.within(1..=400_000);
        let height = random.within(1..=size);
        let mut mesh = tetrahedron(size);
        let up = displaced(&mut mesh, random);
        let side = i64::from(size - height);
        assert_eq!(areas(mesh, up + height), [side * side]);
        side > 0
    });
    assert!(share > 0.9, "too few have an area");
}

#[test]
fn boxes_have_the_same_section_everywhere() {
    let share = Rounds::one_in(100, "layers, areas of boxes").share(|random| {
        let [x, y, z] = [(); 3].map(|()| random.within(1..=400_000));
        let mut mesh = cuboid([-x, 0, 0], [x, y, z]);
        let up = displaced(&mut mesh, random);
        let height = random.within(1..=z);
        let doubled = 2 * 2 * i64::from(x) * i64::from(y);
        assert_eq!(areas(mesh, up + height), [doubled]);
        height < z
    });
    assert!(share > 0.9, "too few are cut below the top");
}

#[test]
fn octahedra_grow_to_the_middle_and_shrink_again() {
    let share = Rounds::one_in(100, "layers, areas of octahedra").share(|random| {
        let size = random.within(1..=400_000);
        let height = random.within(1 - size..=size);
        let mut mesh = octahedron(size);
        let up = displaced(&mut mesh, random);
        let half_diagonal = i64::from(size - height.abs());
        assert_eq!(
            areas(mesh, up + height),
            [4 * half_diagonal * half_diagonal]
        );
        half_diagonal > 0
    });
    assert!(share > 0.9, "too few have an area");
}

#[test]
fn a_torus_has_its_outside_on_the_right_and_its_hole_too() {
    // Its vertices lie on circles of 4, so each contour is a square on its tip.
    let mesh = torus(4, 4, 100, 40);
    let mut areas = areas(mesh, 0);
    areas.sort();
    assert_eq!(areas, [-4 * 60 * 60, 4 * 140 * 140]);
}

#[test]
fn a_torus_on_its_side_has_two_sections_then_one() {
    let turned = |mesh: Mesh| {
        let points = mesh.coords.chunks(3).flat_map(|p| [p[0], -p[2], p[1]]);
        Mesh {
            coords: points.collect(),
            ..mesh
        }
    };
    let mesh = turned(torus(30, 12, 1000, 300));
    for (height, contours) in [(0, 2), (600, 2), (-600, 2), (900, 1), (-900, 1), (1400, 0)] {
        let areas = areas(mesh.clone(), height);
        assert_eq!(areas.len(), contours, "{height}");
        assert!(areas.iter().all(|&area| area > 0), "{height}");
    }
}

#[test]
fn a_cavity_is_taken_off() {
    let hollow = joined(
        cuboid([-9, -9, -9], [9, 9, 9]),
        &inside_out(cuboid([-4, -4, -4], [4, 4, 4])),
    );
    assert_eq!(areas(hollow.clone(), 0), [648, -128]);
    assert_eq!(areas(hollow.clone(), 4), [648, -128]);
    assert_eq!(areas(hollow.clone(), 5), [648]);
    assert_eq!(areas(hollow, -4), [648]);
}

#[test]
fn a_mesh_inside_out_has_all_areas_negated() {
    let mesh = joined(bipyramid(7, 1000, 900), &torus(9, 5, 500, 80));
    for height in [-700, -50, 0, 33, 80, 899] {
        let mut expected: Vec<i64> = areas(mesh.clone(), height)
            .into_iter()
            .map(|area| -area)
            .collect();
        let mut negated = areas(inside_out(mesh.clone()), height);
        expected.sort();
        negated.sort();
        assert!(!expected.is_empty(), "{height}");
        assert_eq!(negated, expected, "{height}");
    }
}

#[test]
fn any_layer_has_the_area_of_its_triangles() {
    let share = Rounds::one_in(10, "layers, areas of any mesh").share(|random| {
        let mesh = random_mesh(random);
        let height = random_height(&mesh, random);
        let expected = section_area(&mesh.coords, &mesh.corners, height);
        let given = Given::paired(mesh, random).at(height);
        assert_eq!(i128::from(product_layer(given).area()), expected);
        expected != 0
    });
    assert!(share > 0.1, "too few sections have an area");
}
