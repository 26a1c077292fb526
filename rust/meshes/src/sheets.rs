//! Shapes whose sheets share edges: each edge occurs as often one way as the other, some of them several
//! times.

use crate::mesh::{Mesh, Triangle};
use crate::shapes::{cuboid, on_circle, rounded};
use std::collections::BTreeMap;

/// Cubes at cells of a grid, each with triangles of its own, those of `cuboid`. Where they touch they
/// share vertices, and so edges.
pub fn cubes(cells: &[[i32; 3]], size: i32) -> Mesh {
    let mut mesh = Mesh::default();
    let mut names: BTreeMap<[i32; 3], u32> = BTreeMap::new();
    for cell in cells {
        let low = cell.map(|place| place * size);
        let cube = cuboid(low, low.map(|place| place + size));
        let named: [u32; 8] = std::array::from_fn(|vertex| {
            let point = cube.point(vertex as u32);
            *names.entry(point).or_insert_with(|| {
                mesh.coords.extend(point);
                mesh.vertex_count() as u32 - 1
            })
        });
        let corners = cube.corners.iter().map(|&vertex| named[vertex as usize]);
        mesh.corners.extend(corners);
    }
    mesh
}

/// Two cubes that touch along an upright edge.
pub fn two_cubes(size: i32) -> Mesh {
    cubes(&[[0, 0, 0], [1, 1, 0]], size)
}

/// Cubes at every second cell of a grid with so many columns, rows and floors, so that they touch along
/// edges.
pub fn chessboard([columns, rows, floors]: [i32; 3], size: i32) -> Mesh {
    let cells = (0..floors).flat_map(|z| {
        let rows = (0..rows).flat_map(move |y| (0..columns).map(move |x| [x, y, z]));
        rows.filter(|cell| cell.iter().sum::<i32>() % 2 == 0)
    });
    cubes(&cells.collect::<Vec<_>>(), size)
}

/// A stack of so many cubes, each of which touches the one below along an edge.
pub fn stack(floors: i32, size: i32) -> Mesh {
    let cells: Vec<[i32; 3]> = (0..floors).map(|floor| [floor % 2, 0, floor]).collect();
    cubes(&cells, size)
}

/// So many flaps round an edge that leads up from vertex 0 to 1. A flap is two triangles back to back,
/// with a vertex of its own.
pub fn flaps(count: u32, radius: i32) -> Mesh {
    let tips = (0..count).map(|i| on_ring(i, count, radius));
    let points: Vec<[i32; 3]> = axis(radius).into_iter().chain(tips).collect();
    let triangles: Vec<Triangle> = (2..count + 2)
        .flat_map(|tip| [[0, 1, tip], [1, 0, tip]])
        .collect();
    Mesh::new(&points, &triangles)
}

/// So many tetrahedra round an edge that leads up from vertex 0 to 1, with room between them.
pub fn fan(count: u32, radius: i32) -> Mesh {
    let sides = (0..2 * count).map(|i| on_ring(i, 2 * count, radius));
    let points: Vec<[i32; 3]> = axis(radius).into_iter().chain(sides).collect();
    let triangles: Vec<Triangle> = (0..count)
        .flat_map(|i| {
            let (near, far) = (2 * i + 2, 2 * i + 3);
            [[1, 0, near], [0, 1, far], [0, far, near], [1, near, far]]
        })
        .collect();
    Mesh::new(&points, &triangles)
}

fn axis(height: i32) -> [[i32; 3]; 2] {
    [[0, 0, -height], [0, 0, height]]
}

fn on_ring(i: u32, n: u32, radius: i32) -> [i32; 3] {
    let (x, y) = on_circle(i, n, f64::from(radius));
    rounded([x, y, 0.0])
}

#[cfg(test)]
mod tests {
    use super::*;
    use crate::measure::{is_even, most_shared, volume};

    fn sizes(mesh: &Mesh) -> (usize, usize, usize) {
        (
            mesh.vertex_count(),
            mesh.triangle_count(),
            most_shared(mesh),
        )
    }

    #[test]
    fn shapes_are_even_and_have_the_sizes_asked_for() {
        for (mesh, expected) in [
            (two_cubes(10), (14, 24, 2)),
            (chessboard([4, 3, 1], 10), (2 * 18, 6 * 12, 2)),
            (chessboard([3, 3, 3], 10), (4 * 4 * 4, 14 * 12, 2)),
            (stack(5, 10), (32, 60, 2)),
            (flaps(7, 100), (9, 14, 7)),
            (fan(7, 100), (16, 28, 7)),
            (flaps(32_766, 1_000_000), (32_768, 65_532, 32_766)),
            (fan(16_383, 1_000_000), (32_768, 65_532, 16_383)),
        ] {
            assert!(is_even(&mesh));
            assert_eq!(sizes(&mesh), expected);
            assert!(mesh.edges().all(|(from, to)| from != to));
        }
    }

    #[test]
    fn solids_have_their_inside_within() {
        assert_eq!(volume(&two_cubes(10)), 2 * 6_000);
        assert_eq!(volume(&chessboard([3, 3, 3], 10)), 14 * 6_000);
        assert_eq!(volume(&stack(5, 10)), 5 * 6_000);
        assert_eq!(volume(&flaps(7, 100)), 0);
        assert!(volume(&fan(7, 100)) > 0);
    }

    #[test]
    fn cubes_at_cells_side_by_side_share_two_triangles_back_to_back() {
        let mesh = cubes(&[[0, 0, 0], [1, 0, 0]], 10);
        assert_eq!(sizes(&mesh), (12, 24, 2));
        assert!(is_even(&mesh));
    }
}
