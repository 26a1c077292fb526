//! Closed shapes of one shell, round the origin unless said otherwise.

use crate::mesh::{Mesh, Triangle};
use std::collections::BTreeMap;
use std::f64::consts::TAU;

/// Two triangles back to back: the closed mesh of fewest triangles.
pub fn pillow(size: i32) -> Mesh {
    let points = [[0, 0, 0], [size, 0, 0], [0, 0, size]];
    Mesh::new(&points, &[[0, 1, 2], [0, 2, 1]])
}

/// A tetrahedron with one vertex at the origin and one on each axis. Part P of the specification is that
/// of size 10.
pub fn tetrahedron(size: i32) -> Mesh {
    let points = [[0, 0, 0], [size, 0, 0], [0, size, 0], [0, 0, size]];
    Mesh::new(&points, &[[0, 2, 1], [0, 1, 3], [0, 3, 2], [1, 2, 3]])
}

/// A box between two opposite points. Bits 0, 1 and 2 of a vertex number choose `high` over `low`
/// in x, y and z.
pub fn cuboid(low: [i32; 3], high: [i32; 3]) -> Mesh {
    let point = |vertex: usize| {
        std::array::from_fn(|axis| match vertex >> axis & 1 {
            0 => low[axis],
            _ => high[axis],
        })
    };
    let points: [[i32; 3]; 8] = std::array::from_fn(point);
    let sides = [
        [0, 2, 3, 1],
        [4, 5, 7, 6],
        [0, 1, 5, 4],
        [2, 6, 7, 3],
        [0, 4, 6, 2],
        [1, 3, 7, 5],
    ];
    Mesh::new(&points, &sides.map(split_quad).concat())
}

/// A double cone: a ring of `n` vertices (at least 3), then a bottom and a top apex, both of
/// degree `n`.
pub fn bipyramid(n: u32, radius: i32, height: i32) -> Mesh {
    let (bottom, top) = (n, n + 1);
    let mut points: Vec<[i32; 3]> = (0..n)
        .map(|i| {
            let (x, y) = on_circle(i, n, f64::from(radius));
            rounded([x, y, 0.0])
        })
        .collect();
    points.extend([[0, 0, -height], [0, 0, height]]);
    let triangles: Vec<Triangle> = (0..n)
        .flat_map(|i| {
            let next = (i + 1) % n;
            [[i, next, top], [next, i, bottom]]
        })
        .collect();
    Mesh::new(&points, &triangles)
}

/// An octahedron with two vertices on each axis.
pub fn octahedron(size: i32) -> Mesh {
    bipyramid(4, size, size)
}

/// A torus round the z axis: `p` vertices round the axis by `q` round the tube, each at least 3.
pub fn torus(p: u32, q: u32, radius: i32, tube_radius: i32) -> Mesh {
    let vertex = |i: u32, j: u32| (i % p) * q + j % q;
    let grid = || (0..p).flat_map(move |i| (0..q).map(move |j| (i, j)));
    let points: Vec<[i32; 3]> = grid()
        .map(|(i, j)| {
            let (outward, z) = on_circle(j, q, f64::from(tube_radius));
            let (x, y) = on_circle(i, p, f64::from(radius) + outward);
            rounded([x, y, z])
        })
        .collect();
    let triangles: Vec<Triangle> = grid()
        .flat_map(|(i, j)| {
            split_quad([
                vertex(i, j),
                vertex(i + 1, j),
                vertex(i + 1, j + 1),
                vertex(i, j + 1),
            ])
        })
        .collect();
    Mesh::new(&points, &triangles)
}

/// A ball: an octahedron whose triangles are split in four, `levels` times over.
pub fn ball(levels: u32, radius: i32) -> Mesh {
    (0..levels).fold(octahedron(radius), |mesh, _| split_in_four(&mesh, radius))
}

/// Splits each triangle at the middles of its edges, which are moved out to the sphere.
fn split_in_four(mesh: &Mesh, radius: i32) -> Mesh {
    let mut split = Mesh {
        coords: mesh.coords.clone(),
        corners: Vec::new(),
    };
    let mut middles: BTreeMap<(u32, u32), u32> = BTreeMap::new();
    for [a, b, c] in mesh.triangles() {
        let [ab, bc, ca] = [(a, b), (b, c), (c, a)].map(|(from, to)| {
            *middles
                .entry((from.min(to), from.max(to)))
                .or_insert_with(|| {
                    let middle = middle_on_sphere(mesh.point(from), mesh.point(to), radius);
                    split.coords.extend(middle);
                    split.vertex_count() as u32 - 1
                })
        });
        let triangles = [[a, ab, ca], [b, bc, ab], [c, ca, bc], [ab, bc, ca]];
        split.corners.extend(triangles.concat());
    }
    split
}

fn middle_on_sphere(a: [i32; 3], b: [i32; 3], radius: i32) -> [i32; 3] {
    let sum: [f64; 3] = std::array::from_fn(|axis| f64::from(a[axis]) + f64::from(b[axis]));
    let length = sum.iter().map(|x| x * x).sum::<f64>().sqrt();
    rounded(sum.map(|x| x * f64::from(radius) / length))
}

/// Point `i` of `n` on a circle, counterclockwise.
pub(crate) fn on_circle(i: u32, n: u32, radius: f64) -> (f64, f64) {
    let angle = TAU * f64::from(i) / f64::from(n);
    (radius * angle.cos(), radius * angle.sin())
}

pub(crate) fn rounded(point: [f64; 3]) -> [i32; 3] {
    point.map(|x| x.round() as i32)
}

fn split_quad([a, b, c, d]: [u32; 4]) -> [Triangle; 2] {
    [[a, b, c], [a, c, d]]
}

#[cfg(test)]
mod tests {
    use super::*;
    use crate::measure::{euler_number, is_closed, volume};

    #[test]
    fn shapes_are_closed_round_solids() {
        let shapes = [
            (tetrahedron(10), 2),
            (cuboid([-5, 2, 1], [5, 4, 9]), 2),
            (octahedron(7), 2),
            (bipyramid(3, 10, 20), 2),
            (bipyramid(100, 1000, 500), 2),
            (torus(3, 3, 30, 10), 0),
            (torus(16, 7, 300, 100), 0),
            (ball(0, 100), 2),
            (ball(3, 1000), 2),
        ];
        for (mesh, euler) in shapes {
            assert!(is_closed(&mesh), "{mesh:?}");
            assert_eq!(euler_number(&mesh), euler, "{mesh:?}");
            assert!(volume(&mesh) > 0, "{mesh:?}");
        }
    }

    #[test]
    fn a_pillow_is_closed_round_nothing() {
        assert!(is_closed(&pillow(10)));
        assert_eq!(volume(&pillow(10)), 0);
    }

    #[test]
    fn shapes_have_the_sizes_asked_for() {
        let sizes = |mesh: &Mesh| (mesh.vertex_count(), mesh.triangle_count());
        assert_eq!(sizes(&torus(5, 7, 30, 10)), (35, 70));
        assert_eq!(sizes(&bipyramid(9, 10, 10)), (11, 18));
        assert_eq!(sizes(&ball(2, 100)), (66, 128));
        assert_eq!(volume(&cuboid([0; 3], [1, 2, 3])), 36);
    }

    #[test]
    fn spoiled_shapes_are_not_taken_for_closed_ones() {
        let mut without = octahedron(10);
        without.remove_triangle(3);
        assert!(!is_closed(&without));

        let mut flipped = octahedron(10);
        flipped.flip_triangle(3);
        assert!(!is_closed(&flipped));

        let mut doubled = octahedron(10);
        doubled.join(&octahedron(10));
        (0..6).for_each(|v| doubled.weld(v, v + 6));
        assert!(!is_closed(&doubled));

        let mut inside_out = octahedron(10);
        (0..8).for_each(|t| inside_out.flip_triangle(t));
        assert!(is_closed(&inside_out));
        assert!(volume(&inside_out) < 0);
    }
}
