//! What becomes of a layer where the mesh is moved, mirrored or turned inside out, asked of the
//! product. The oracle has no part in it.

use super::areas::inside_out;
use super::layer::{product_layer, Layer};
use super::promises::{at_some_height, coordinates, of_layers, random_given, Coordinate};
use crate::harness::{Case, Operation, Rounds};
use crate::operations::{Check, Given};
use meshes::{closed_mesh, Mesh, Random};

/// As far as a mesh reaches that is moved, and as far as it is moved at most.
const REACH: i32 = 400_000;

/// A random mesh and height that stay within the limits where they are moved.
fn movable(random: &mut Random) -> Given {
    let mut given = random_given(random);
    given.height %= REACH;
    given.mesh.coords.iter_mut().for_each(|x| *x %= REACH);
    given
}

fn moved(given: &Given, distances: [i32; 3]) -> Given {
    let mut given = given.clone();
    given.mesh.move_by(distances);
    given.height += distances[2];
    given
}

/// What a coordinate gains beside the distance: a half that comes to lie above zero gains one, one
/// that comes to lie below loses one.
fn gain(before: &Coordinate, after: &Coordinate) -> i128 {
    if before.is_half() {
        i128::from(after.exact > 0) - i128::from(before.exact > 0)
    } else {
        0
    }
}

#[test]
fn moving_the_mesh_moves_the_layer_but_for_halves_whose_sign_changes() {
    let [contours, gains] = Rounds::one_in(25, "layers, moved").shares(|random| {
        let given = movable(random);
        let reach = random.choose(&[3, REACH]);
        let distances = [(); 3].map(|()| random.within(-reach..=reach));
        let moved = moved(&given, distances);
        let [before, after] = [&given, &moved].map(|given| product_layer(given.clone()));
        assert_eq!(after.names, before.names);
        assert_eq!(after.ends, before.ends);

        let pairs = coordinates(&given, &before).zip(coordinates(&moved, &after));
        let mut has_gained = false;
        for ((before, after), &distance) in pairs.zip(distances[..2].iter().cycle()) {
            let gain = gain(&before, &after);
            assert_eq!(after.rounded, before.rounded + i128::from(distance) + gain);
            has_gained |= gain != 0;
        }
        [before.contours() > 0, has_gained]
    });
    assert!(contours > 0.3, "too few layers have a contour: {contours}");
    assert!(gains > 0.05, "too few have a half that gains: {gains}");
}

#[test]
fn moving_the_mesh_up_or_down_changes_nothing() {
    of_layers("moved up and down", movable, |given, layer| {
        for distance in [-REACH, -1, 2, REACH] {
            assert_eq!(product_layer(moved(given, [0, 0, distance])), *layer);
        }
    });
}

/// The mesh with x (axis 0) or y (axis 1) of every vertex negated.
fn mirrored_mesh(mesh: &Mesh, axis: usize) -> Mesh {
    let mut mesh = mesh.clone();
    let coords = mesh.coords.iter_mut().skip(axis).step_by(3);
    coords.for_each(|x| *x = -*x);
    mesh
}

/// The layer with x or y of every point negated. That negates the areas too.
fn mirrored_layer(layer: &Layer, axis: usize) -> Layer {
    let mut layer = layer.clone();
    let points = layer.points.iter_mut().flatten();
    points.for_each(|point| point[axis] = -point[axis]);
    layer.areas.iter_mut().for_each(|area| *area = -*area);
    layer
}

#[test]
fn a_mirrored_mesh_has_the_mirrored_layer() {
    of_layers("mirrored", random_given, |given, layer| {
        for axis in 0..2 {
            let mirrored = Given {
                mesh: mirrored_mesh(&given.mesh, axis),
                ..given.clone()
            };
            assert_eq!(product_layer(mirrored), mirrored_layer(layer, axis));
        }
    });
}

/// A mesh with the pairing that the product's check makes.
fn checked(mesh: Mesh) -> Given {
    let mut case = Case::<Check>::exact(Given::bare(mesh));
    case.run(Check::product).unwrap();
    Given {
        pairing: case.tables.pairing.view().to_vec(),
        ..case.input
    }
}

// A contour starts in its least triangle, and run backwards it starts there too: with the crossing
// that was its last.
#[test]
fn a_mirrored_mesh_turned_round_has_the_mirrored_rings_backwards() {
    let closed = |random: &mut Random| at_some_height(closed_mesh(random), random);
    of_layers("mirrored and turned round", closed, |given, layer| {
        for axis in 0..2 {
            let mesh = inside_out(mirrored_mesh(&given.mesh, axis));
            let turned = product_layer(checked(mesh).at(given.height));
            let mut backwards = mirrored_layer(layer, axis).points;
            backwards.iter_mut().for_each(|ring| ring.reverse());
            assert_eq!(turned.points, backwards);
            assert_eq!(turned.ends, layer.ends);
            assert_eq!(turned.areas, layer.areas);
        }
    });
}
