//! The mesh of the specification, and the refusals that every operation on one begins with.

use crate::refusal::{refuse_if, refuse_least, Refusal};
use std::ops::RangeInclusive;

const MOST_VERTICES: usize = 32_768;
const MOST_TRIANGLES: usize = 65_536;

pub(crate) const COORDINATES: RangeInclusive<i32> = -1_048_576..=1_048_576;

/// A directed edge: the vertices it leads from and to.
pub(crate) type Edge = (u32, u32);

/// The directed edge of a corner.
pub(crate) fn edge(corners: &[u32], corner: usize) -> Edge {
    let triangle = corner / 3;
    let next = 3 * triangle + (corner + 1) % 3;
    (corners[corner], corners[next])
}

pub(crate) fn reverse((from, to): Edge) -> Edge {
    (to, from)
}

/// Refusal 1 of a mesh.
pub(crate) fn refuse_sizes(coords: &[i32], corners: &[u32]) -> Result<(), Refusal> {
    let (vertices, triangles) = (coords.len() / 3, corners.len() / 3);
    refuse_if(1, !coords.len().is_multiple_of(3))?;
    refuse_if(1, !corners.len().is_multiple_of(3))?;
    refuse_if(1, vertices > MOST_VERTICES || triangles > MOST_TRIANGLES)
}

/// Refusals 2, 3 and 4.
pub(crate) fn refuse_entries(coords: &[i32], corners: &[u32]) -> Result<(), Refusal> {
    let vertices = coords.len() / 3;
    let all_corners = 0..corners.len();
    refuse_out_of_range(coords)?;
    refuse_least(3, all_corners.clone(), |c| corners[c] as usize >= vertices)?;
    refuse_least(4, all_corners.step_by(3), |c| {
        names_a_vertex_twice(&corners[c..c + 3])
    })
}

/// Refusal 2, of coordinates or of points.
pub(crate) fn refuse_out_of_range(numbers: &[i32]) -> Result<(), Refusal> {
    refuse_least(2, 0..numbers.len(), |i| !COORDINATES.contains(&numbers[i]))
}

fn names_a_vertex_twice(triangle: &[u32]) -> bool {
    let [a, b, c] = [triangle[0], triangle[1], triangle[2]];
    a == b || b == c || c == a
}
