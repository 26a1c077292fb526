//! What the tests of this crate measure on a mesh.

use crate::Mesh;
use std::collections::BTreeSet;

/// Whether no directed edge occurs twice, and the reverse edges are the same edges.
pub fn is_closed(mesh: &Mesh) -> bool {
    most_shared(mesh) <= 1 && is_even(mesh)
}

/// Whether each edge occurs as often one way as the other. By sorting, so that it shares nothing with
/// a map from edge to corner.
pub fn is_even(mesh: &Mesh) -> bool {
    let mut edges: Vec<_> = mesh.edges().collect();
    let mut reverse: Vec<_> = edges.iter().map(|&(from, to)| (to, from)).collect();
    edges.sort();
    reverse.sort();
    edges == reverse
}

/// How often a directed edge occurs, the one that occurs most.
pub fn most_shared(mesh: &Mesh) -> usize {
    let mut edges: Vec<_> = mesh.edges().collect();
    edges.sort();
    let counts = edges.chunk_by(|a, b| a == b).map(<[_]>::len);
    counts.max().unwrap_or(0)
}

/// Vertices less edges plus triangles: 2 for a ball, 0 for a torus.
pub fn euler_number(mesh: &Mesh) -> i64 {
    let edges: BTreeSet<_> = mesh.edges().map(|(a, b)| (a.min(b), a.max(b))).collect();
    mesh.vertex_count() as i64 - edges.len() as i64 + mesh.triangle_count() as i64
}

/// Six times the enclosed volume: above zero if the triangles are counterclockwise seen from
/// outside.
pub fn volume(mesh: &Mesh) -> i128 {
    mesh.triangles()
        .map(|triangle| {
            let [a, b, c] = triangle.map(|v| mesh.point(v).map(i128::from));
            a[0] * (b[1] * c[2] - b[2] * c[1])
                + a[1] * (b[2] * c[0] - b[0] * c[2])
                + a[2] * (b[0] * c[1] - b[1] * c[0])
        })
        .sum()
}
