//! Random meshes, closed, damaged and meaningless, against the oracle.

use crate::harness::{test_product, test_threads, Operation};
use crate::operations::{Check, Given};
use meshes::{closed_mesh, large_mesh, shared_edges, uneven_edges, Damage, Mesh, Random};

/// A mesh that is left as it is, or damaged once or twice.
fn damaged_perhaps(mut mesh: Mesh, random: &mut Random) -> Given {
    for _ in 0..random.choose(&[0, 1, 1, 2]) {
        Damage::any(random).apply(&mut mesh, random);
    }
    Given::bare(mesh)
}

/// A closed mesh, perhaps damaged.
pub fn perhaps_damaged(random: &mut Random) -> Given {
    damaged_perhaps(closed_mesh(random), random)
}

/// A mesh with shared edges, some of them perhaps used unevenly.
pub fn perhaps_uneven(random: &mut Random) -> Given {
    match random.below(6) {
        0 | 1 => Given::bare(uneven_edges(random)),
        2 => damaged_perhaps(shared_edges(random), random),
        _ => Given::bare(shared_edges(random)),
    }
}

/// Random triangles over few vertices, so that edges meet often.
fn few_vertices(random: &mut Random) -> Given {
    let vertices = random.choose(&[2, 3, 3, 4, 4, 5, 6]);
    let coords = (0..3 * vertices).map(|_| random.within(-1..=1)).collect();
    let mut mesh = Mesh {
        coords,
        corners: Vec::new(),
    };
    let mut names: Vec<u32> = (0..vertices.max(3) as u32).collect();
    for _ in 0..random.below(7) {
        random.shuffle(&mut names);
        mesh.corners.extend(&names[..3]);
    }
    if random.one_in(8) {
        Damage::any(random).apply(&mut mesh, random);
    }
    Given::bare(mesh)
}

/// A closed mesh near the limits, perhaps damaged.
fn near_the_limits(random: &mut Random) -> Given {
    damaged_perhaps(large_mesh(random), random)
}

#[test]
fn meshes_closed_and_damaged() {
    let tally = test_product::<Check>("closed and damaged meshes", 1, perhaps_damaged);
    tally.require(&[0], 100);
    tally.require_refusals(Check::REFUSALS, 100);
}

#[test]
fn corner_tables_over_few_vertices() {
    let tally = test_product::<Check>("few vertices", 1, few_vertices);
    tally.require(&[0, 6], 100);
}

#[test]
fn shared_edges_even_and_uneven() {
    let tally = test_product::<Check>("shared edges", 2, perhaps_uneven);
    tally.require(&[0], 100);
    tally.require_refusals(Check::REFUSALS, 100);
}

#[test]
fn meshes_near_the_limits() {
    test_product::<Check>("near the limits", 4_000, near_the_limits);
}

#[test]
fn several_threads_at_once() {
    test_threads::<Check>(100, perhaps_damaged);
    test_threads::<Check>(100, perhaps_uneven);
}
