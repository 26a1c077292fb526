//! Random meshes, tables and heights, right and damaged, against the oracle.

use crate::harness::{test_product, test_threads, Operation};
use crate::inputs::{by_default, damage_mesh, paired, right};
use crate::operations::{AllLayers, Given};
use meshes::{large_mesh, random_height, OrderDamage, PairingDamage, Random};

/// Of mesh, pairing, order and heights nothing, something or two things are damaged.
pub fn perhaps_damaged(random: &mut Random) -> Given {
    let mut given = if random.one_in(3) {
        by_default(random)
    } else {
        right(random)
    };
    for _ in 0..random.choose(&[0, 0, 1, 1, 2]) {
        damage(&mut given, random);
    }
    given
}

fn damage(given: &mut Given, random: &mut Random) {
    match random.below(4) {
        0 => damage_mesh(given, random),
        1 => PairingDamage::any(random).apply(&given.mesh, &mut given.pairing, random),
        2 => OrderDamage::any(random).apply(&given.mesh, &mut given.order, random),
        _ if given.heights.is_empty() => given.heights = vec![5; 2 + random.below(5_000)],
        _ => {
            let place = random.below(given.heights.len());
            given.heights[place] = random_height(&given.mesh, random);
        }
    }
}

/// A mesh near the limits at few heights.
pub fn near_the_limits(random: &mut Random) -> Given {
    let mesh = large_mesh(random);
    let mut heights = [(); 3].map(|()| random_height(&mesh, random)).to_vec();
    heights.sort();
    heights.dedup();
    paired(mesh, random).over(&heights)
}

#[test]
fn right_meshes() {
    let tally = test_product::<AllLayers>("right meshes", 100, right);
    tally.require(&[0, 1, 9, 14], 20);
}

#[test]
fn default_heights() {
    let tally = test_product::<AllLayers>("default heights", 50, by_default);
    tally.require(&[0, 9, 14], 20);
}

#[test]
fn meshes_and_tables_right_and_damaged() {
    let tally = test_product::<AllLayers>("right and damaged", 50, perhaps_damaged);
    tally.require(&[0], 10);
    tally.require_refusals(AllLayers::REFUSALS, 10);
    tally.require_places(12);
    assert_eq!(tally.count(16), 0);
}

#[test]
fn meshes_near_the_limits() {
    test_product::<AllLayers>("near the limits", 100_000, near_the_limits);
}

#[test]
fn several_threads_at_once() {
    test_threads::<AllLayers>(2_000, perhaps_damaged);
}
