//! The section of a mesh at a height, as the specification defines it under "Section and points".

use crate::area::cross;
use crate::mesh::{edge, reverse, Edge};
use std::cmp::Ordering;
use std::collections::{BTreeMap, BTreeSet};

/// The corners of a ring, in the sequence of its crossings, from the least.
pub(crate) type Ring = Vec<usize>;

/// A mesh that passes the tests 1 to 4, and a height.
#[derive(Clone, Copy)]
pub(crate) struct Plane<'a> {
    pub coords: &'a [i32],
    pub corners: &'a [u32],
    pub height: i32,
}

impl Plane<'_> {
    fn vertex(&self, vertex: u32) -> [i128; 3] {
        let first = 3 * vertex as usize;
        [0, 1, 2].map(|axis| i128::from(self.coords[first + axis]))
    }

    fn passed(&self, vertex: u32) -> bool {
        self.vertex(vertex)[2] < i128::from(self.height)
    }

    fn is_rising(&self, (start, end): Edge) -> bool {
        self.passed(start) && !self.passed(end)
    }

    /// The falling and the rising corner of each triangle that has them.
    fn crossed_triangles(&self) -> impl Iterator<Item = (usize, usize)> + '_ {
        let triangles = 0..self.corners.len() / 3;
        triangles.filter_map(|t| {
            let mut corners = 3 * t..3 * t + 3;
            let rising = corners
                .clone()
                .find(|&c| self.is_rising(edge(self.corners, c)));
            let falling = corners.find(|&c| self.is_rising(reverse(edge(self.corners, c))));
            assert_eq!(falling.is_some(), rising.is_some(), "one of each or none");
            falling.zip(rising)
        })
    }

    /// The point of a crossing.
    pub fn point(&self, crossing: usize) -> [i32; 2] {
        self.point_on(edge(self.corners, crossing))
    }

    /// The rounded point where an edge that leads up meets the height.
    fn point_on(&self, (start, end): Edge) -> [i32; 2] {
        let (low, high) = (self.vertex(start), self.vertex(end));
        let rise = high[2] - low[2];
        let part = i128::from(self.height) - low[2];
        [0, 1].map(|axis| {
            let exact = (low[axis] * rise + (high[axis] - low[axis]) * part, rise);
            i32::try_from(nearest(exact)).expect("it lies between two coordinates")
        })
    }

    /// The successor of each crossing: a triangle leads from the edge that falls in it, whose
    /// other corner is a crossing, to the edge that rises in it. The pairing must be right.
    pub fn successors(&self, pairing: &[u32]) -> BTreeMap<usize, usize> {
        self.crossed_triangles()
            .map(|(falling, rising)| (pairing[falling] as usize, rising))
            .collect()
    }
}

/// The whole number nearest to a fraction: of the two round it the nearer one, and at equal
/// distance the one further from zero. The denominator must be above zero.
fn nearest((numerator, denominator): (i128, i128)) -> i128 {
    let below = numerator.div_euclid(denominator);
    let above = below + 1;
    let down = numerator - below * denominator;
    let up = above * denominator - numerator;
    match down.cmp(&up) {
        Ordering::Less => below,
        Ordering::Greater => above,
        Ordering::Equal if below.abs() > above.abs() => below,
        Ordering::Equal => above,
    }
}

/// The rings of these successors, by least corner; or the crossing where a walk meets one already
/// used that is not its start.
pub(crate) fn rings(successors: &BTreeMap<usize, usize>) -> Result<Vec<Ring>, usize> {
    let mut unused: BTreeSet<usize> = successors.keys().copied().collect();
    let mut rings = Vec::new();
    while let Some(start) = unused.pop_first() {
        let mut ring = vec![start];
        let mut crossing = successors[&start];
        while crossing != start {
            if !unused.remove(&crossing) {
                return Err(crossing);
            }
            ring.push(crossing);
            crossing = successors[&crossing];
        }
        rings.push(ring);
    }
    Ok(rings)
}

/// The sum of the doubled areas of all contours at a height, found without contours: each crossed
/// triangle gives one term, in whatever sequence.
///
/// The mesh must pass the tests 1 to 4.
pub fn section_area(coords: &[i32], corners: &[u32], height: i32) -> i128 {
    let plane = Plane {
        coords,
        corners,
        height,
    };
    plane
        .crossed_triangles()
        .map(|(falling, rising)| {
            let from = plane.point_on(reverse(edge(corners, falling)));
            cross(from, plane.point(rising))
        })
        .sum()
}

#[cfg(test)]
mod tests {
    use super::*;
    use meshes::shapes::{cuboid, tetrahedron, torus};
    use meshes::Mesh;

    fn plane(mesh: &Mesh, height: i32) -> Plane<'_> {
        Plane {
            coords: &mesh.coords,
            corners: &mesh.corners,
            height,
        }
    }

    #[test]
    fn halves_go_away_from_zero() {
        for (numerator, expected) in [
            (-7, -4),
            (-6, -3),
            (-5, -3),
            (-3, -2),
            (-1, -1),
            (0, 0),
            (1, 1),
            (2, 1),
            (3, 2),
            (5, 3),
            (7, 4),
        ] {
            assert_eq!(nearest((numerator, 2)), expected, "{numerator}/2");
        }
        let sixths = [-9, -3, 3, 9].map(|numerator| nearest((numerator, 6)));
        assert_eq!(sixths, [-2, -1, 1, 2]);
    }

    #[test]
    fn other_fractions_go_to_the_nearest() {
        let thirds = [-5, -4, -2, -1, 1, 2, 4, 5].map(|numerator| nearest((numerator, 3)));
        assert_eq!(thirds, [-2, -1, -1, 0, 0, 1, 1, 2]);
        let fifths = [-8, -7, -3, -2, 2, 3, 7, 8].map(|numerator| nearest((numerator, 5)));
        assert_eq!(fifths, [-2, -1, -1, 0, 0, 1, 1, 2]);
    }

    #[test]
    fn a_vertex_at_the_height_is_not_passed() {
        let part_p = tetrahedron(10);
        let passed = |height| [0, 1, 2, 3].map(|vertex| plane(&part_p, height).passed(vertex));
        assert_eq!(passed(0), [false; 4]);
        assert_eq!(passed(1), [true, true, true, false]);
        assert_eq!(passed(10), [true, true, true, false]);
        assert_eq!(passed(11), [true; 4]);
    }

    #[test]
    fn triangles_lead_from_their_falling_corner_to_their_rising_one() {
        let part_p = tetrahedron(10);
        let steps: Vec<_> = plane(&part_p, 5).crossed_triangles().collect();
        assert_eq!(steps, [(5, 4), (7, 6), (11, 10)]);
    }

    #[test]
    fn rings_start_at_their_least_corner_and_stand_by_it() {
        let successors = BTreeMap::from([(7, 3), (3, 9), (9, 7), (1, 8), (8, 1)]);
        assert_eq!(rings(&successors), Ok(vec![vec![1, 8], vec![3, 9, 7]]));
        assert_eq!(rings(&BTreeMap::new()), Ok(vec![]));
    }

    #[test]
    fn a_used_crossing_that_is_not_the_start_is_named() {
        let back_into_its_own_walk = BTreeMap::from([(1, 4), (4, 6), (6, 4)]);
        assert_eq!(rings(&back_into_its_own_walk), Err(4));
        let into_a_ring_before = BTreeMap::from([(1, 4), (4, 1), (6, 8), (8, 4)]);
        assert_eq!(rings(&into_a_ring_before), Err(4));
    }

    #[test]
    fn section_areas_of_known_solids() {
        let area = |mesh: &Mesh, height| section_area(&mesh.coords, &mesh.corners, height);
        assert_eq!(area(&tetrahedron(10), 5), 25);
        assert_eq!(area(&tetrahedron(10), 10), 0);
        assert_eq!(area(&cuboid([-3, -5, -7], [4, 5, 7]), -2), 2 * 7 * 10);
        // A ring between two squares, on their tips.
        let square_torus = torus(4, 4, 100, 40);
        assert_eq!(area(&square_torus, 0), 4 * (140 * 140 - 60 * 60));
    }
}
