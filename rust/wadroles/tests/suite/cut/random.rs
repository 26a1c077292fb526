//! Random meshes and pairings, right and damaged, against the oracle.

use crate::harness::{test_product, test_threads, Operation};
use crate::inputs::{damage_mesh, paired, random_mesh, right};
use crate::operations::{Cut, Given};
use meshes::{large_mesh, random_pairing, PairingDamage, Random};

/// A mesh and a pairing of which one or both are damaged, as a rule.
pub fn perhaps_damaged(random: &mut Random) -> Given {
    let mut given = right(random);
    damage_perhaps(&mut given, random);
    given
}

fn damage_perhaps(given: &mut Given, random: &mut Random) {
    if random.one_in(3) {
        for _ in 0..1 + random.below(2) {
            damage_mesh(given, random);
        }
        if random.one_in(3) {
            given.pairing = random_pairing(&given.mesh, random);
        }
    }
    if random.one_in(3) {
        for _ in 0..1 + random.below(2) {
            PairingDamage::any(random).apply(&given.mesh, &mut given.pairing, random);
        }
    }
}

/// Vertices of small and often equal coordinates, so that many lie on the plane and many points at
/// a half.
fn few_units(random: &mut Random) -> Given {
    let mut mesh = random_mesh(random);
    mesh.coords.fill_with(|| random.within(-3..=3));
    paired(mesh, random).at(random.within(-4..=4))
}

/// A mesh near the limits, at times with half of its vertices up and half of them down.
fn near_the_limits(random: &mut Random) -> Given {
    let mut mesh = large_mesh(random);
    if random.one_in(3) {
        let heights = mesh.coords.iter_mut().skip(2).step_by(3);
        heights.for_each(|z| *z = random.choose(&[-1_048_576, 1_048_576]));
    }
    let mut given = paired(mesh, random);
    if random.one_in(2) {
        damage_perhaps(&mut given, random);
    }
    given
}

#[test]
fn right_meshes() {
    let tally = test_product::<Cut>("right meshes", 4, right);
    tally.require(&[0, 9], 100);
}

#[test]
fn meshes_and_pairings_right_and_damaged() {
    let tally = test_product::<Cut>("right and damaged meshes", 4, perhaps_damaged);
    tally.require(&[0], 100);
    tally.require_refusals(Cut::REFUSALS, 100);
}

#[test]
fn coordinates_of_few_units() {
    let tally = test_product::<Cut>("few units", 4, few_units);
    tally.require(&[0, 9], 100);
}

#[test]
fn meshes_near_the_limits() {
    test_product::<Cut>("near the limits", 8_000, near_the_limits);
}

#[test]
fn several_threads_at_once() {
    test_threads::<Cut>(250, perhaps_damaged);
}
