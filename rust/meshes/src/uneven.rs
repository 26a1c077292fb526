use crate::damage::double_triangle;
use crate::{shared_edges, Mesh, Random};

/// A mesh with shared edges that is spoiled at one of them, once or several times: a triangle is missing,
/// turned inside out or there once more, so that the edge is used more often one way than the other, as
/// a rule.
pub fn uneven_edges(random: &mut Random) -> Mesh {
    let mut mesh = shared_edges(random);
    let edges: Vec<(u32, u32)> = mesh.edges().collect();
    if edges.is_empty() {
        return mesh;
    }
    let (from, to) = most_of_three(&edges, random);
    for _ in 0..random.choose(&[1, 1, 2, 3]) {
        let triangles = mesh.triangles().enumerate();
        let there: Vec<usize> = triangles
            .filter(|(_, triangle)| triangle.contains(&from) && triangle.contains(&to))
            .map(|(number, _)| number)
            .collect();
        if !there.is_empty() {
            let triangle = random.choose(&there);
            spoil(&mut mesh, triangle, random);
        }
    }
    mesh
}

fn spoil(mesh: &mut Mesh, triangle: usize, random: &mut Random) {
    match random.below(3) {
        0 => mesh.remove_triangle(triangle),
        1 => mesh.flip_triangle(triangle),
        _ => double_triangle(mesh, triangle, random),
    }
}

/// Of three random edges the one that occurs most.
fn most_of_three(edges: &[(u32, u32)], random: &mut Random) -> (u32, u32) {
    let count = |edge: &(u32, u32)| edges.iter().filter(|other| *other == edge).count();
    let three = [(); 3].map(|()| random.choose(edges));
    *three.iter().max_by_key(|edge| count(edge)).expect("three")
}

#[cfg(test)]
mod tests {
    use super::*;
    use crate::measure::is_even;

    fn many() -> impl Iterator<Item = Mesh> {
        (0..2000).map(|round| uneven_edges(&mut Random::of_round(1, round)))
    }

    /// How often an edge occurs more one way than the other, that of the greatest difference.
    fn most_left_over(mesh: &Mesh) -> usize {
        let edges: Vec<_> = mesh.edges().collect();
        let count = |edge: (u32, u32)| edges.iter().filter(|other| **other == edge).count();
        let left = edges
            .iter()
            .map(|&(a, b)| count((a, b)).abs_diff(count((b, a))));
        left.max().unwrap_or(0)
    }

    #[test]
    fn most_are_uneven_and_some_by_more_than_one() {
        assert!(many().filter(|mesh| !is_even(mesh)).count() > 1_000);
        for left in 2..=3 {
            let met = many().filter(|mesh| most_left_over(mesh) >= left).count();
            assert!(met > 50, "{left}: {met}");
        }
    }

    #[test]
    fn no_triangle_names_a_vertex_twice() {
        assert!(many().all(|mesh| mesh.edges().all(|(from, to)| from != to)));
    }
}
