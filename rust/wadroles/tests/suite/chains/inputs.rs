//! Random inputs of a chain.

use crate::inputs::random_mesh;
use crate::sweep::Call;
use meshes::{random_height, rising_heights, Mesh, Random};
use oracle::Part;

/// A part whose mesh has a right pairing, and whose heights rise, as a rule. At times it has no
/// heights, and its default ones are few.
pub fn random_part(random: &mut Random) -> Part {
    let mut mesh = random_mesh(random);
    let mut heights = rising_heights(&mesh, random);
    if random.one_in(6) {
        let z = mesh.coords.iter_mut().skip(2).step_by(3);
        z.for_each(|z| *z = random.within(-300..=300));
        heights.clear();
    }
    if random.one_in(8) && !heights.is_empty() {
        let place = random.below(heights.len());
        heights[place] = random_height(&mesh, random);
    }
    Part {
        coords: mesh.coords,
        corners: mesh.corners,
        heights,
    }
}

/// Some rises, to heights that rise as a rule, and some steps before each.
pub fn random_calls(mesh: &Mesh, random: &mut Random) -> Vec<Call> {
    let mut heights = rising_heights(mesh, random);
    heights.truncate(4);
    if random.one_in(4) {
        heights.push(random_height(mesh, random));
    }
    let mut calls = Vec::new();
    for height in heights {
        calls.extend(vec![Call::Step; random.below(3)]);
        calls.push(Call::Layer(height));
    }
    calls
}
