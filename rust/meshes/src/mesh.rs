use crate::Random;
use std::ops::Range;

/// The most vertices a mesh may have.
pub const MAX_VERTICES: usize = 32_768;

/// The most triangles a mesh may have.
pub const MAX_TRIANGLES: usize = 65_536;

/// The farthest a coordinate may be from zero.
pub const MAX_COORDINATE: i32 = 1_048_576;

/// The vertex numbers of a triangle, counterclockwise seen from outside.
pub type Triangle = [u32; 3];

/// A table of coordinates (x, y, z per vertex) and a table of corners (three per triangle).
///
/// Damage may leave either with a length that is no multiple of three.
#[derive(Clone, Debug, Default, PartialEq, Eq)]
pub struct Mesh {
    /// The coordinates.
    pub coords: Vec<i32>,
    /// The corners, by the numbers of their vertices.
    pub corners: Vec<u32>,
}

impl Mesh {
    /// The mesh of these points and triangles.
    pub fn new(points: &[[i32; 3]], triangles: &[Triangle]) -> Self {
        Mesh {
            coords: points.concat(),
            corners: triangles.concat(),
        }
    }

    /// The number of whole points in the table of coordinates.
    pub fn vertex_count(&self) -> usize {
        self.coords.len() / 3
    }

    /// The number of whole triangles in the table of corners.
    pub fn triangle_count(&self) -> usize {
        self.corners.len() / 3
    }

    /// The point of a vertex.
    pub fn point(&self, vertex: u32) -> [i32; 3] {
        let first = 3 * vertex as usize;
        std::array::from_fn(|axis| self.coords[first + axis])
    }

    /// All triangles.
    pub fn triangles(&self) -> impl Iterator<Item = Triangle> + '_ {
        self.corners.chunks_exact(3).map(|t| [t[0], t[1], t[2]])
    }

    /// All directed edges, by corner.
    pub fn edges(&self) -> impl Iterator<Item = (u32, u32)> + '_ {
        self.triangles()
            .flat_map(|[a, b, c]| [(a, b), (b, c), (c, a)])
    }

    /// The three corners of a triangle.
    pub fn triangle_mut(&mut self, triangle: usize) -> &mut [u32] {
        &mut self.corners[corners_of(triangle)]
    }

    /// Takes a triangle out; later ones move down.
    pub fn remove_triangle(&mut self, triangle: usize) {
        self.corners.drain(corners_of(triangle));
    }

    /// Puts a triangle in at a number; those from there on move up.
    pub fn insert_triangle(&mut self, number: usize, triangle: Triangle) {
        self.corners.splice(3 * number..3 * number, triangle);
    }

    /// Turns a triangle's inside out.
    pub fn flip_triangle(&mut self, triangle: usize) {
        self.triangle_mut(triangle).swap(1, 2);
    }

    /// Adds another mesh, whose vertices and triangles come after those already here.
    pub fn join(&mut self, other: &Mesh) {
        let offset = self.vertex_count() as u32;
        self.coords.extend(&other.coords);
        self.corners
            .extend(other.corners.iter().map(|v| v + offset));
    }

    /// Moves all points by the same distances.
    pub fn move_by(&mut self, distances: [i32; 3]) {
        for point in self.coords.chunks_exact_mut(3) {
            for axis in 0..3 {
                point[axis] += distances[axis];
            }
        }
    }

    /// So many times smaller in x and y, rounded to zero; heights stay.
    pub fn smaller(mut self, times: i32) -> Self {
        for point in self.coords.chunks_exact_mut(3) {
            point[0] /= times;
            point[1] /= times;
        }
        self
    }

    /// Names one vertex wherever another was named, which stays behind unused.
    pub fn weld(&mut self, kept: u32, dropped: u32) {
        for vertex in &mut self.corners {
            if *vertex == dropped {
                *vertex = kept;
            }
        }
    }

    /// Numbers the vertices in a random sequence.
    pub fn rename_vertices(&mut self, random: &mut Random) {
        let mut new_names: Vec<u32> = (0..self.vertex_count() as u32).collect();
        random.shuffle(&mut new_names);
        let old_coords = self.coords.clone();
        for (point, &name) in old_coords.chunks_exact(3).zip(&new_names) {
            let first = 3 * name as usize;
            self.coords[first..first + 3].copy_from_slice(point);
        }
        for vertex in &mut self.corners {
            *vertex = new_names[*vertex as usize];
        }
    }

    /// Brings the triangles into a random sequence, each starting from a random corner.
    pub fn shuffle_triangles(&mut self, random: &mut Random) {
        let mut triangles: Vec<Triangle> = self.triangles().collect();
        random.shuffle(&mut triangles);
        for triangle in &mut triangles {
            triangle.rotate_left(random.below(3));
        }
        self.corners = triangles.concat();
    }

    /// Shuffles names and triangles.
    pub fn shuffle(&mut self, random: &mut Random) {
        self.rename_vertices(random);
        self.shuffle_triangles(random);
    }
}

fn corners_of(triangle: usize) -> Range<usize> {
    3 * triangle..3 * triangle + 3
}

#[cfg(test)]
mod tests {
    use super::*;
    use crate::shapes::tetrahedron;

    /// The points of the triangles, as a sorted list that names and sequence do not change.
    fn sorted_points(mesh: &Mesh) -> Vec<[[i32; 3]; 3]> {
        let mut all: Vec<_> = mesh
            .triangles()
            .map(|triangle| {
                let mut points = triangle.map(|v| mesh.point(v));
                let least = (0..3).min_by_key(|&k| points[k]).unwrap();
                points.rotate_left(least);
                points
            })
            .collect();
        all.sort();
        all
    }

    #[test]
    fn shuffling_changes_the_tables_but_not_the_solid() {
        let mesh = tetrahedron(10);
        let mut shuffled = mesh.clone();
        shuffled.shuffle(&mut Random::new(1));
        assert_ne!(shuffled.coords, mesh.coords);
        assert_ne!(shuffled.corners, mesh.corners);
        assert_eq!(sorted_points(&shuffled), sorted_points(&mesh));
    }

    #[test]
    fn joining_keeps_both_meshes_apart() {
        let mut joined = tetrahedron(10);
        joined.join(&tetrahedron(20));
        assert_eq!(joined.vertex_count(), 8);
        assert_eq!(joined.triangle_count(), 8);
        assert_eq!(joined.triangles().nth(4), Some([4, 6, 5]));
        assert_eq!(joined.point(5), [20, 0, 0]);
    }

    #[test]
    fn a_smaller_mesh_is_as_high() {
        let mut mesh = tetrahedron(10);
        mesh.move_by([-3, 1, 0]);
        let points: Vec<[i32; 3]> = (0..4).map(|v| mesh.clone().smaller(4).point(v)).collect();
        assert_eq!(points, [[0, 0, 0], [1, 0, 0], [0, 2, 0], [0, 0, 10]]);
    }

    #[test]
    fn edges_stand_by_corner() {
        let mesh = tetrahedron(10);
        let edges: Vec<_> = mesh.edges().collect();
        assert_eq!(edges[..4], [(0, 2), (2, 1), (1, 0), (0, 1)]);
    }

    #[test]
    fn triangles_are_put_in_and_taken_out_whole() {
        let mut mesh = tetrahedron(10);
        mesh.insert_triangle(1, [7, 8, 9]);
        assert_eq!(mesh.triangles().nth(1), Some([7, 8, 9]));
        assert_eq!(mesh.triangles().nth(2), Some([0, 1, 3]));
        mesh.remove_triangle(1);
        assert_eq!(mesh, tetrahedron(10));
    }
}
