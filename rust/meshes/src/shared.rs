use crate::sheets::{chessboard, cubes, fan, flaps, stack};
use crate::{closed_mesh, Mesh, Random};

/// A random mesh each of whose edges occurs equally often in both directions, some of them several
/// times. It has no triangle that names a vertex twice, and it is within the limits.
pub fn shared_edges(random: &mut Random) -> Mesh {
    let mut mesh = match random.below(6) {
        0 => sheets_over_the_same_vertices(random),
        1 => welded_along_edges(random),
        2 | 3 => touching_solids(random),
        _ => triangles_back_to_back(random),
    };
    if !random.one_in(8) {
        mesh.shuffle(random);
    }
    mesh
}

/// Cubes that touch, or sheets round an edge.
fn touching_solids(random: &mut Random) -> Mesh {
    let size = random.within(1..=1000);
    let few = |random: &mut Random| random.within(1..=3);
    match random.below(5) {
        0 => flaps(random.within(1..=9) as u32, size),
        1 => fan(random.within(1..=5) as u32, size),
        2 => stack(random.within(1..=5), size),
        3 => {
            let cell = |random: &mut Random| [(); 3].map(|()| random.within(-1..=1));
            let cells: Vec<[i32; 3]> = (0..few(random)).map(|_| cell(random)).collect();
            cubes(&cells, size)
        }
        _ => chessboard([few(random), few(random), random.within(1..=2)], size),
    }
}

/// A closed mesh, and some of it once more over the same vertices, turned inside out or not.
fn sheets_over_the_same_vertices(random: &mut Random) -> Mesh {
    let mut mesh = closed_mesh(random);
    let first = mesh.triangle_count();
    mesh.corners.extend_from_within(..);
    if random.one_in(2) {
        (first..2 * first).for_each(|triangle| mesh.flip_triangle(triangle));
    }
    mesh
}

/// A closed mesh and a copy of it, which share the vertices of some edges.
fn welded_along_edges(random: &mut Random) -> Mesh {
    let mut mesh = closed_mesh(random);
    let edges: Vec<(u32, u32)> = mesh.edges().collect();
    let vertices = mesh.vertex_count() as u32;
    mesh.join(&mesh.clone());
    for _ in 0..random.below(4) {
        if !edges.is_empty() {
            let (from, to) = random.choose(&edges);
            mesh.weld(from, from + vertices);
            mesh.weld(to, to + vertices);
        }
    }
    mesh
}

/// Random triangles over few vertices, each with one the other way round.
fn triangles_back_to_back(random: &mut Random) -> Mesh {
    let vertices = random.choose(&[3, 4, 4, 5, 6]);
    let reach = random.choose(&[1, 3, 1000]);
    let mut mesh = Mesh {
        coords: (0..3 * vertices)
            .map(|_| random.within(-reach..=reach))
            .collect(),
        corners: Vec::new(),
    };
    let mut names: Vec<u32> = (0..vertices as u32).collect();
    for _ in 0..random.below(7) {
        random.shuffle(&mut names);
        let (a, b, c) = (names[0], names[1], names[2]);
        mesh.corners.extend([a, b, c, c, b, a]);
    }
    mesh
}

#[cfg(test)]
mod tests {
    use super::*;
    use crate::measure::{is_closed, is_even, most_shared};

    fn many() -> impl Iterator<Item = Mesh> {
        (0..2000).map(|round| shared_edges(&mut Random::of_round(1, round)))
    }

    #[test]
    fn edges_occur_equally_often_in_both_directions() {
        for mesh in many() {
            assert!(is_even(&mesh), "{mesh:?}");
        }
    }

    #[test]
    fn no_triangle_names_a_vertex_twice() {
        for mesh in many() {
            assert!(mesh.edges().all(|(from, to)| from != to), "{mesh:?}");
        }
    }

    #[test]
    fn most_have_an_edge_that_occurs_several_times() {
        assert!(many().filter(|mesh| !is_closed(mesh)).count() > 1000);
        for times in 3..=6 {
            let met = many().filter(|mesh| most_shared(mesh) >= times).count();
            assert!(met > 50, "{times}: {met}");
        }
    }
}
