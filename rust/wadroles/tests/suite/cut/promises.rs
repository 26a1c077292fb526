//! What the specification says of every layer, asked of the product's layers one by one. The oracle has
//! no part in it.

use super::layer::{product_layer, Layer};
use crate::harness::Rounds;
use crate::inputs::random_mesh;
use crate::operations::Given;
use meshes::{random_height, Mesh, Random};

/// A random mesh with a right pairing, and a height that crosses it as a rule.
pub fn random_given(random: &mut Random) -> Given {
    at_some_height(random_mesh(random), random)
}

/// The mesh with a right pairing, at a height that crosses it as a rule. At times its coordinates
/// are made so small that many points lie at a half.
pub fn at_some_height(mut mesh: Mesh, random: &mut Random) -> Given {
    if random.one_in(3) {
        mesh.coords.fill_with(|| random.within(-3..=3));
    }
    let given = Given::paired(mesh, random);
    let height = random_height(&given.mesh, random);
    given.at(height)
}

/// Asks a question of random layers, and requires that enough of them have a contour, and enough a
/// point at a half.
pub fn of_layers(name: &str, given: fn(&mut Random) -> Given, question: fn(&Given, &Layer)) {
    let rounds = Rounds::one_in(25, format!("layers, {name}"));
    let [contours, halves] = rounds.shares(|random| {
        let given = given(random);
        let layer = product_layer(given.clone());
        question(&given, &layer);
        let has_half = coordinates(&given, &layer).any(|c| c.is_half());
        [layer.contours() > 0, has_half]
    });
    assert!(contours > 0.3, "too few layers have a contour: {contours}");
    assert!(halves > 0.1, "too few layers have a half: {halves}");
}

fn of_every_layer(name: &str, question: fn(&Given, &Layer)) {
    of_layers(name, random_given, question);
}

fn is_rising(given: &Given, corner: usize) -> bool {
    let (start, end) = edge(&given.mesh, corner);
    start[2] < i128::from(given.height) && end[2] >= i128::from(given.height)
}

/// The two ends of a corner's edge.
fn edge(mesh: &Mesh, corner: usize) -> ([i128; 3], [i128; 3]) {
    let [a, b, c] = triangle(mesh, corner);
    [(a, b), (b, c), (c, a)][corner % 3]
}

/// The three points of a corner's triangle.
fn triangle(mesh: &Mesh, corner: usize) -> [[i128; 3]; 3] {
    let first = corner / 3 * 3;
    [0, 1, 2].map(|k| mesh.point(mesh.corners[first + k]).map(i128::from))
}

/// Where an edge meets the height, times its rise.
fn exact(low: [i128; 3], high: [i128; 3], axis: usize, height: i32) -> i128 {
    low[axis] * (high[2] - low[2]) + (high[axis] - low[axis]) * (i128::from(height) - low[2])
}

/// x or y of a point, and its exact value, which is `exact` over `rise`.
pub struct Coordinate {
    pub rounded: i128,
    pub exact: i128,
    pub rise: i128,
}

impl Coordinate {
    /// Whether the exact value lies half way between two whole numbers.
    pub fn is_half(&self) -> bool {
        self.exact % self.rise != 0 && 2 * self.exact % self.rise == 0
    }
}

/// x and y of each point of a layer.
pub fn coordinates<'a>(
    given: &'a Given,
    layer: &'a Layer,
) -> impl Iterator<Item = Coordinate> + 'a {
    let names = layer.names.iter().flatten();
    let points = layer.points.iter().flatten();
    names.zip(points).flat_map(move |(&name, point)| {
        let (low, high) = edge(&given.mesh, name as usize);
        [0, 1].map(|axis| Coordinate {
            rounded: point[axis].into(),
            exact: exact(low, high, axis, given.height),
            rise: high[2] - low[2],
        })
    })
}

/// Each name with its follower; the last is followed by the first.
fn followed(names: &[u32]) -> impl Iterator<Item = (usize, usize)> + '_ {
    let followers = names.iter().cycle().skip(1);
    names
        .iter()
        .zip(followers)
        .map(|(&name, &follower)| (name as usize, follower as usize))
}

#[test]
fn every_crossing_is_named_once() {
    of_every_layer("every crossing once", |given, layer| {
        let mut names = layer.names.concat();
        names.sort();
        let rising = (0..given.mesh.corners.len())
            .filter(|&corner| is_rising(given, corner))
            .map(|corner| corner as u32);
        assert!(rising.eq(names));
    });
}

#[test]
fn every_name_is_followed_by_its_successor() {
    of_every_layer("successors", |given, layer| {
        for (name, follower) in layer.names.iter().flat_map(|names| followed(names)) {
            let pair = given.pairing[name] as usize;
            assert!(is_rising(given, follower));
            assert_eq!(follower / 3, pair / 3);
        }
    });
}

#[test]
fn contours_start_at_their_least_corner_and_stand_by_it() {
    of_every_layer("starts", |_, layer| {
        for names in &layer.names {
            assert_eq!(names.iter().min(), names.first());
        }
        assert!(layer.names.is_sorted_by_key(|names| names[0]));
    });
}

#[test]
fn contours_have_two_points_at_least() {
    of_every_layer("two points", |_, layer| {
        assert!(layer.names.iter().all(|names| names.len() >= 2));
    });
}

#[test]
fn points_are_the_nearest_and_at_a_half_further_from_zero() {
    of_every_layer("nearest points", |given, layer| {
        for c in coordinates(given, layer) {
            let off = (c.rounded * c.rise - c.exact).abs();
            assert!(2 * off <= c.rise);
            assert!(2 * off < c.rise || (c.rounded * c.rise).abs() > c.exact.abs());
        }
    });
}

#[test]
fn the_solid_lies_left() {
    of_every_layer("solid on the left", |given, layer| {
        for (name, follower) in layer.names.iter().flat_map(|names| followed(names)) {
            let [a, b, c] = triangle(&given.mesh, follower);
            let (u, v) = (difference(b, a), difference(c, a));
            let normal = [u[1] * v[2] - u[2] * v[1], u[2] * v[0] - u[0] * v[2]];
            let along = [-normal[1], normal[0]];
            let way = exact_way(given, name, follower);
            assert_eq!(way[0] * along[1], way[1] * along[0]);
            assert!(way[0] * along[0] >= 0 && way[1] * along[1] >= 0);
            assert!(along != [0, 0] || way == [0, 0]);
        }
    });
}

fn difference(a: [i128; 3], b: [i128; 3]) -> [i128; 3] {
    [0, 1, 2].map(|axis| a[axis] - b[axis])
}

/// The way from a crossing to another before rounding, times the rises of both edges.
fn exact_way(given: &Given, from: usize, to: usize) -> [i128; 2] {
    let (low, high) = edge(&given.mesh, from);
    let (next_low, next_high) = edge(&given.mesh, to);
    [0, 1].map(|axis| {
        exact(next_low, next_high, axis, given.height) * (high[2] - low[2])
            - exact(low, high, axis, given.height) * (next_high[2] - next_low[2])
    })
}
