//! Random inputs of the operations on a mesh.

use super::checked;
use crate::operations::Given;
use meshes::shapes::{ball, torus};
use meshes::{
    closed_mesh, random_height, rising_heights, shared_edges, uneven_edges, vertex_order, Damage,
    Mesh, Random,
};

/// A mesh that has a right pairing: closed as a rule, or with edges that occur several times.
pub fn random_mesh(random: &mut Random) -> Mesh {
    if random.one_in(3) {
        shared_edges(random)
    } else {
        closed_mesh(random)
    }
}

/// The same, or a finer solid, so small in x and y that many of its edges are shorter than a unit
/// there.
pub fn shrunk(random: &mut Random) -> Mesh {
    let mesh = match random.below(4) {
        0 => torus(12, 9, 2_000, 700),
        1 => ball(2, 1_000),
        _ => random_mesh(random),
    };
    mesh.smaller(random.choose(&[20, 100, 300, 1_000]))
}

/// A mesh with a right pairing, the right order and a height. Both tables are longer than they need be
/// at times.
pub fn paired(mesh: Mesh, random: &mut Random) -> Given {
    let mut given = Given::paired(mesh, random);
    if random.one_in(4) {
        let pairing = (0..1 + random.below(5)).map(|_| random.word() as u32);
        given.pairing.extend(pairing);
        given.order.extend([random.word() as u32; 2]);
    }
    given.height = random_height(&given.mesh, random);
    given
}

/// A random mesh with its pairing, order and heights, all right.
pub fn right(random: &mut Random) -> Given {
    let mesh = random_mesh(random);
    let heights = rising_heights(&mesh, random);
    paired(mesh, random).over(&heights)
}

/// A mesh with shared edges, paired by the product, with its order and heights that rise.
pub fn shared(random: &mut Random) -> Given {
    let given = checked(shared_edges(random));
    let height = random_height(&given.mesh, random);
    let heights = rising_heights(&given.mesh, random);
    given.at(height).over(&heights)
}

/// A mesh of which an edge is used more often one way than the other, as a rule, with the right order and
/// heights that rise. Its pairing is right but at the corners for which none is left.
pub fn uneven(random: &mut Random) -> Given {
    let mesh = uneven_edges(random);
    let heights = rising_heights(&mesh, random);
    paired(mesh, random).over(&heights)
}

/// A random mesh with its pairing and order, without heights, with a few by default.
pub fn by_default(random: &mut Random) -> Given {
    let mut mesh = random_mesh(random);
    let reach = random.choose(&[20, 60, 200, 1_000]);
    let heights = mesh.coords.iter_mut().skip(2).step_by(3);
    heights.for_each(|z| *z = random.within(-reach..=reach));
    paired(mesh, random)
}

/// Damages the mesh, and at times makes the order anew.
pub fn damage_mesh(given: &mut Given, random: &mut Random) {
    Damage::any(random).apply(&mut given.mesh, random);
    if random.one_in(2) {
        given.order = vertex_order(&given.mesh);
    }
}
