use crate::{Mesh, Random, MAX_COORDINATE};
use std::collections::BTreeSet;

/// A random height for a mesh: that of a vertex as a rule, or next to it, or halfway between two
/// vertices; at times one far off.
pub fn random_height(mesh: &Mesh, random: &mut Random) -> i32 {
    let heights: Vec<i32> = mesh.coords.chunks_exact(3).map(|point| point[2]).collect();
    if heights.is_empty() || random.one_in(8) {
        return far_height(random);
    }
    let (a, b) = (random.choose(&heights), random.choose(&heights));
    match random.below(6) {
        0 | 1 => a,
        2 => a.saturating_add(1),
        3 => a.saturating_sub(1),
        _ => a.midpoint(b),
    }
}

/// Random heights for a mesh that rise strictly: few as a rule, at times none or many.
pub fn rising_heights(mesh: &Mesh, random: &mut Random) -> Vec<i32> {
    let count = match random.below(20) {
        0 => random.below(60),
        _ => random.below(7),
    };
    let heights: BTreeSet<i32> = (0..count).map(|_| random_height(mesh, random)).collect();
    heights.into_iter().collect()
}

fn far_height(random: &mut Random) -> i32 {
    match random.below(4) {
        0 => random.choose(&[i32::MIN, i32::MAX]),
        1 => random.choose(&[-MAX_COORDINATE, MAX_COORDINATE, MAX_COORDINATE + 1]),
        2 => random.within(-MAX_COORDINATE..=MAX_COORDINATE),
        _ => random.within(i32::MIN..=i32::MAX),
    }
}

#[cfg(test)]
mod tests {
    use super::*;
    use crate::shapes::tetrahedron;

    #[test]
    fn heights_are_on_vertices_between_them_and_outside() {
        let part_p = tetrahedron(10);
        let mut random = Random::new(1);
        let heights: BTreeSet<i32> = (0..1000)
            .map(|_| random_height(&part_p, &mut random))
            .collect();
        for height in [i32::MIN, -MAX_COORDINATE, -1, 0, 1, 5, 9, 10, 11, i32::MAX] {
            assert!(heights.contains(&height), "{height}");
        }
    }

    #[test]
    fn a_mesh_without_vertices_is_cut_somewhere() {
        let mut random = Random::new(1);
        let heights: BTreeSet<i32> = (0..100)
            .map(|_| random_height(&Mesh::default(), &mut random))
            .collect();
        assert!(heights.len() > 10);
    }

    #[test]
    fn rising_heights_are_none_few_or_many() {
        let lengths: BTreeSet<usize> = (0..1000)
            .map(|round| {
                let heights = rising_heights(&tetrahedron(10), &mut Random::of_round(1, round));
                assert!(heights.is_sorted_by(|a, b| a < b));
                heights.len()
            })
            .collect();
        assert!(lengths.contains(&0) && lengths.contains(&1));
        assert!(lengths.last() > Some(&10));
    }
}
