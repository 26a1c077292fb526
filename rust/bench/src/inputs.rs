//! The meshes that check, cut and the sweep are timed on, and the heights.

use crate::comparison::Kind;
use meshes::shapes::{bipyramid, torus};
use meshes::sheets::flaps;
use meshes::{Mesh, Random};

/// The points of each layer of the largest double cone.
const CONE_POINTS: usize = 32_766;

/// Meshes of 16,384, 32,768 and 65,536 triangles, or nearly so.
pub fn kinds<S: 'static>(subject: fn(Mesh) -> S) -> Vec<Kind<S>> {
    let mut kinds = torus_kinds(subject);
    kinds.extend([
        Kind::new("double cone", cones(), subject),
        Kind::new("double cone, shuffled", cones().map(shuffled), subject),
    ]);
    kinds
}

/// Tori of 16,384, 32,768 and 65,536 triangles.
pub fn torus_kinds<S: 'static>(subject: fn(Mesh) -> S) -> Vec<Kind<S>> {
    vec![
        Kind::new("torus", tori(), subject),
        Kind::new("torus, shuffled", tori().map(shuffled), subject),
    ]
}

/// Flaps on one edge, which is used 7,500, 15,000 and 30,000 times each way.
pub fn flap_kinds<S: 'static>(subject: fn(Mesh) -> S) -> Vec<Kind<S>> {
    let flaps = || [7_500, 15_000, 30_000].map(|count| flaps(count, 1_000_000));
    vec![
        Kind::new("flaps on one edge", flaps(), subject),
        Kind::new("flaps, shuffled", flaps().map(shuffled), subject),
    ]
}

pub fn tori() -> [Mesh; 3] {
    [64, 128, 256].map(|q| torus(128, q, 700_000, 300_000))
}

pub fn cones() -> [Mesh; 3] {
    [8_192, 16_383, 32_766].map(double_cone)
}

/// A torus of 65,536 triangles.
pub fn largest_torus() -> Mesh {
    let [_, _, largest] = tori();
    largest
}

/// A double cone of 65,532 triangles, of which each height between its apexes crosses half.
pub fn largest_cone() -> Mesh {
    double_cone(32_766)
}

fn double_cone(around: u32) -> Mesh {
    bipyramid(around, 1_000_000, 1_000_000)
}

/// So many heights at equal distances, from next to the bottom to next to the top.
pub fn heights(mesh: &Mesh, count: i32) -> Vec<i32> {
    let z = || mesh.coords.iter().skip(2).step_by(3).copied();
    let (low, high) = (z().min().unwrap_or(0), z().max().unwrap_or(0));
    let distance = (high - low) / count;
    (0..count)
        .map(|i| low + distance / 2 + i * distance)
        .collect()
}

/// The points of the layers at rising heights.
pub fn point_count(mesh: &Mesh, heights: &[i32]) -> usize {
    let up_to = |vertex| heights.partition_point(|&h| h <= mesh.point(vertex)[2]);
    mesh.edges()
        .map(|(from, to)| up_to(to).saturating_sub(up_to(from)))
        .sum()
}

/// The same of the largest double cone, whose every layer has as many.
pub fn cone_point_count(cone: &Mesh, heights: &[i32]) -> usize {
    let mut points = heights.iter().map(|&h| point_count(cone, &[h]));
    assert!(points.all(|count| count == CONE_POINTS));
    heights.len() * CONE_POINTS
}

fn shuffled(mut mesh: Mesh) -> Mesh {
    mesh.shuffle(&mut Random::new(1));
    mesh
}
