use crate::shapes::{ball, bipyramid, cuboid, octahedron, pillow, tetrahedron, torus};
use crate::{Mesh, Random, MAX_COORDINATE};

const MOST_SHELLS: usize = 4;

/// A random closed mesh within the limits: some shells, perhaps none, and some unused vertices,
/// with names and triangles shuffled.
///
/// Shells may share coordinates, or one vertex number with a shell before them.
pub fn closed_mesh(random: &mut Random) -> Mesh {
    let mut mesh = Mesh::default();
    for _ in 0..random.below(MOST_SHELLS + 1) {
        let shell = random_shell(random);
        join_perhaps_touching(&mut mesh, &shell, random);
    }
    if random.one_in(8) {
        let twin = mesh.clone();
        mesh.join(&twin);
    }
    if random.one_in(3) {
        let unused = 1 + random.below(5);
        mesh.coords.extend(vec![0; 3 * unused]);
    }
    spread_points(&mut mesh, random);
    mesh.shuffle(random);
    mesh
}

/// A closed mesh of as many vertices and triangles as the limits allow, or somewhat fewer, with
/// names and triangles shuffled half of the times.
pub fn large_mesh(random: &mut Random) -> Mesh {
    let mut mesh = match random.below(6) {
        0 => torus(128, 256, 700_000, 300_000),
        1 => torus(127, 258, 700_000, 300_000),
        2 => torus(3, 10_922, 700_000, 300_000),
        3 => bipyramid(32_766, MAX_COORDINATE, MAX_COORDINATE),
        4 => bipyramid(32_765, MAX_COORDINATE, 0),
        _ => {
            let mut two = ball(6, 500_000);
            two.join(&torus(127, 128, 700_000, 300_000));
            two
        }
    };
    if random.one_in(2) {
        mesh.shuffle(random);
    }
    mesh
}

fn random_shell(random: &mut Random) -> Mesh {
    let size = random.within(1..=1000);
    let mut shell = match random.below(7) {
        0 => pillow(size),
        1 => tetrahedron(size),
        2 => cuboid([-size; 3], [size; 3]),
        3 => octahedron(size),
        4 => bipyramid(random_count(random), size, size),
        5 => torus(random_count(random), random_count(random), 2 * size, size),
        _ => ball(random.below(3) as u32, size),
    };
    shell.move_by([(); 3].map(|()| random.within(-1000..=1000)));
    shell
}

/// How many vertices go round a shell: few as a rule, many at times.
fn random_count(random: &mut Random) -> u32 {
    let most = if random.one_in(20) { 30 } else { 6 };
    random.within(3..=most) as u32
}

fn join_perhaps_touching(mesh: &mut Mesh, shell: &Mesh, random: &mut Random) {
    let before = mesh.vertex_count();
    mesh.join(shell);
    if before > 0 && random.one_in(3) {
        let kept = random.below(before);
        let dropped = before + random.below(shell.vertex_count());
        mesh.weld(kept as u32, dropped as u32);
    }
}

/// Leaves the points where they are, or moves them all: check asks only that they be in range.
fn spread_points(mesh: &mut Mesh, random: &mut Random) {
    let place: fn(&mut Random) -> i32 = match random.below(5) {
        0 => |_| 0,
        1 => |random| random.within(-2..=2),
        2 => |random| random.within(-MAX_COORDINATE..=MAX_COORDINATE),
        3 => |random| random.choose(&[-MAX_COORDINATE, MAX_COORDINATE]),
        _ => return,
    };
    mesh.coords.fill_with(|| place(random));
}

#[cfg(test)]
mod tests {
    use super::*;
    use crate::measure::is_closed;
    use std::collections::BTreeSet;

    fn many() -> Vec<Mesh> {
        (0..2000)
            .map(|round| closed_mesh(&mut Random::of_round(1, round)))
            .collect()
    }

    fn used_vertices(mesh: &Mesh) -> BTreeSet<u32> {
        mesh.corners.iter().copied().collect()
    }

    fn points(mesh: &Mesh) -> BTreeSet<&[i32]> {
        mesh.coords.chunks_exact(3).collect()
    }

    #[test]
    fn all_are_closed() {
        assert!(many().iter().all(is_closed));
    }

    #[test]
    fn no_triangle_names_a_vertex_twice() {
        for mesh in many() {
            assert!(mesh.edges().all(|(from, to)| from != to), "{mesh:?}");
        }
    }

    #[test]
    fn all_are_within_the_limits() {
        let range = -MAX_COORDINATE..=MAX_COORDINATE;
        for mesh in many() {
            assert!(mesh.coords.iter().all(|x| range.contains(x)), "{mesh:?}");
            let names = used_vertices(&mesh);
            assert!(names.iter().all(|&v| (v as usize) < mesh.vertex_count()));
        }
    }

    #[test]
    fn some_are_of_each_special_kind() {
        let meshes = many();
        let count = |kind: fn(&Mesh) -> bool| meshes.iter().filter(|mesh| kind(mesh)).count();
        assert!(count(|mesh| *mesh == Mesh::default()) > 20);
        assert!(count(|mesh| mesh.corners.is_empty() && !mesh.coords.is_empty()) > 20);
        assert!(count(|mesh| used_vertices(mesh).len() < mesh.vertex_count()) > 200);
        assert!(count(|mesh| points(mesh).len() < mesh.vertex_count()) > 200);
        assert!(count(|mesh| mesh.coords.contains(&MAX_COORDINATE)) > 200);
        assert!(count(|mesh| mesh.coords.contains(&-MAX_COORDINATE)) > 200);
        assert!(count(|mesh| mesh.triangle_count() > 200) > 20);
    }
}
