use crate::{Mesh, Random, MAX_COORDINATE, MAX_TRIANGLES, MAX_VERTICES};

/// A way to spoil a mesh.
#[derive(Clone, Copy, Debug, PartialEq, Eq)]
pub enum Damage {
    /// The table of coordinates gets one or two too many.
    CoordsLength,
    /// The table of corners gets one or two too many.
    CornersLength,
    /// The mesh gets so many unused vertices that it has one too many.
    VertexCount,
    /// The mesh gets so many triangles that it has one too many.
    TriangleCount,
    /// A coordinate is out of range.
    Coordinate,
    /// A corner names no vertex.
    Name,
    /// A triangle names a vertex twice.
    RepeatedVertex,
    /// A corner names another vertex than before.
    MovedCorner,
    /// A triangle occurs twice.
    DoubledTriangle,
    /// A triangle is turned inside out.
    FlippedTriangle,
    /// A triangle is missing.
    RemovedTriangle,
    /// Two vertices become one.
    WeldedVertices,
}

impl Damage {
    /// The kinds that keep a small mesh small.
    const SMALL: [Damage; 10] = [
        Damage::CoordsLength,
        Damage::CornersLength,
        Damage::Coordinate,
        Damage::Name,
        Damage::RepeatedVertex,
        Damage::MovedCorner,
        Damage::DoubledTriangle,
        Damage::FlippedTriangle,
        Damage::RemovedTriangle,
        Damage::WeldedVertices,
    ];

    /// The kinds that make a mesh as large as the limits.
    const LARGE: [Damage; 2] = [Damage::VertexCount, Damage::TriangleCount];

    /// A random kind, seldom one that makes the mesh large.
    pub fn any(random: &mut Random) -> Damage {
        if random.one_in(500) {
            random.choose(&Damage::LARGE)
        } else {
            random.choose(&Damage::SMALL)
        }
    }

    /// Spoils the mesh at a random place, if it has one.
    pub fn apply(self, mesh: &mut Mesh, random: &mut Random) {
        let (vertices, triangles) = (mesh.vertex_count(), mesh.triangle_count());
        match self {
            Damage::CoordsLength => mesh.coords.extend(vec![0; 1 + random.below(2)]),
            Damage::CornersLength => mesh.corners.extend(vec![0; 1 + random.below(2)]),
            Damage::VertexCount => mesh.coords.resize(3 * (MAX_VERTICES + 1), 0),
            Damage::TriangleCount => mesh.corners.resize(3 * (MAX_TRIANGLES + 1), 0),
            Damage::Coordinate if vertices > 0 => spoil_coordinate(mesh, random),
            Damage::WeldedVertices if vertices > 0 => weld_vertices(mesh, random),
            Damage::MovedCorner if vertices > 0 && triangles > 0 => move_corner(mesh, random),
            Damage::Name if triangles > 0 => spoil_name(mesh, random),
            Damage::RepeatedVertex if triangles > 0 => repeat_vertex(mesh, random),
            Damage::DoubledTriangle if triangles > 0 => {
                double_triangle(mesh, random.below(triangles), random)
            }
            Damage::FlippedTriangle if triangles > 0 => mesh.flip_triangle(random.below(triangles)),
            Damage::RemovedTriangle if triangles > 0 => {
                mesh.remove_triangle(random.below(triangles))
            }
            _ => {}
        }
    }
}

fn spoil_coordinate(mesh: &mut Mesh, random: &mut Random) {
    let position = random.below(mesh.coords.len());
    mesh.coords[position] = match random.below(4) {
        0 => random.choose(&[-MAX_COORDINATE - 1, MAX_COORDINATE + 1]),
        1 => random.choose(&[i32::MIN, i32::MAX]),
        2 => random.within(i32::MIN..=-MAX_COORDINATE - 1),
        _ => random.within(MAX_COORDINATE + 1..=i32::MAX),
    };
}

fn spoil_name(mesh: &mut Mesh, random: &mut Random) {
    let first_missing = mesh.vertex_count() as u32;
    let corner = random.below(mesh.corners.len());
    mesh.corners[corner] = match random.below(4) {
        0 => first_missing,
        1 => first_missing + random.below(10) as u32,
        2 => u32::MAX,
        _ => random.within(i32::MIN..=-1) as u32,
    };
}

fn repeat_vertex(mesh: &mut Mesh, random: &mut Random) {
    let triangle = random.below(mesh.triangle_count());
    let corners = mesh.triangle_mut(triangle);
    let corner = random.below(3);
    corners[corner] = corners[(corner + 1) % 3];
}

fn move_corner(mesh: &mut Mesh, random: &mut Random) {
    let corner = random.below(mesh.corners.len());
    mesh.corners[corner] = random.below(mesh.vertex_count()) as u32;
}

/// Puts a copy of the triangle in at a random number.
pub(crate) fn double_triangle(mesh: &mut Mesh, triangle: usize, random: &mut Random) {
    let mut copy = [0; 3];
    copy.copy_from_slice(mesh.triangle_mut(triangle));
    copy.rotate_left(random.below(3));
    mesh.insert_triangle(random.below(mesh.triangle_count() + 1), copy);
}

fn weld_vertices(mesh: &mut Mesh, random: &mut Random) {
    let vertices = mesh.vertex_count();
    mesh.weld(random.below(vertices) as u32, random.below(vertices) as u32);
}

#[cfg(test)]
mod tests {
    use super::*;
    use crate::measure::is_closed;
    use crate::shapes::octahedron;

    /// What the damage does to an octahedron, many times over.
    fn spoiled(damage: Damage) -> impl Iterator<Item = Mesh> {
        (0..200).map(move |round| {
            let mut mesh = octahedron(10);
            damage.apply(&mut mesh, &mut Random::of_round(1, round));
            mesh
        })
    }

    fn names_a_vertex_twice(mesh: &Mesh) -> bool {
        mesh.edges().any(|(from, to)| from == to)
    }

    #[test]
    fn lengths_are_no_multiples_of_three() {
        assert!(spoiled(Damage::CoordsLength).all(|mesh| !mesh.coords.len().is_multiple_of(3)));
        assert!(spoiled(Damage::CornersLength).all(|mesh| !mesh.corners.len().is_multiple_of(3)));
    }

    #[test]
    fn counts_are_one_too_many() {
        let mut mesh = octahedron(10);
        Damage::VertexCount.apply(&mut mesh, &mut Random::new(1));
        Damage::TriangleCount.apply(&mut mesh, &mut Random::new(1));
        assert_eq!(mesh.vertex_count(), 32_769);
        assert_eq!(mesh.triangle_count(), 65_537);
    }

    #[test]
    fn coordinates_are_out_of_range_on_both_sides() {
        let has = |mesh: &Mesh, wrong: fn(i32) -> bool| mesh.coords.iter().any(|&x| wrong(x));
        let meshes: Vec<Mesh> = spoiled(Damage::Coordinate).collect();
        assert!(meshes
            .iter()
            .all(|mesh| has(mesh, |x| x.unsigned_abs() > 1_048_576)));
        for extreme in [i32::MIN, -1_048_577, 1_048_577, i32::MAX] {
            assert!(meshes.iter().any(|mesh| mesh.coords.contains(&extreme)));
        }
    }

    #[test]
    fn names_are_of_no_vertex() {
        let meshes: Vec<Mesh> = spoiled(Damage::Name).collect();
        assert!(meshes
            .iter()
            .all(|mesh| mesh.corners.iter().any(|&v| v >= 6)));
        for name in [6, u32::MAX] {
            assert!(meshes.iter().any(|mesh| mesh.corners.contains(&name)));
        }
    }

    #[test]
    fn a_vertex_is_repeated_in_each_of_three_ways() {
        let meshes: Vec<Mesh> = spoiled(Damage::RepeatedVertex).collect();
        assert!(meshes.iter().all(names_a_vertex_twice));
        for way in 0..3 {
            let repeats = |mesh: &Mesh| mesh.triangles().any(|t| t[way] == t[(way + 1) % 3]);
            assert!(meshes.iter().any(repeats));
        }
    }

    #[test]
    fn triangles_doubled_flipped_or_removed_leave_the_mesh_open() {
        for (damage, triangles) in [
            (Damage::DoubledTriangle, 9),
            (Damage::FlippedTriangle, 8),
            (Damage::RemovedTriangle, 7),
        ] {
            for mesh in spoiled(damage) {
                assert_eq!(mesh.triangle_count(), triangles, "{damage:?}");
                assert!(!is_closed(&mesh), "{damage:?}");
                assert!(!names_a_vertex_twice(&mesh), "{damage:?}");
            }
        }
    }

    #[test]
    fn moved_corners_and_welded_vertices_mostly_spoil_the_mesh() {
        for damage in [Damage::MovedCorner, Damage::WeldedVertices] {
            let spoilt = spoiled(damage).filter(|mesh| *mesh != octahedron(10));
            assert!(spoilt.count() > 100, "{damage:?}");
        }
    }

    #[test]
    fn an_empty_mesh_has_no_place_to_spoil() {
        for damage in Damage::SMALL.into_iter().skip(2) {
            let mut mesh = Mesh::default();
            damage.apply(&mut mesh, &mut Random::new(1));
            assert_eq!(mesh, Mesh::default(), "{damage:?}");
        }
    }
}
