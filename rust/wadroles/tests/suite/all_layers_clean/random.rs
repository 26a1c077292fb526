//! Random meshes, tables and heights, right and damaged, against the oracle.

use crate::all_layers::{near_the_limits, perhaps_damaged};
use crate::harness::{test_product, test_threads, Operation};
use crate::inputs::{by_default, paired, right, shrunk};
use crate::operations::{AllLayersClean, Given};
use meshes::{rising_heights, Random};

/// A mesh of many edges shorter than a unit, at heights that are right.
pub fn small(random: &mut Random) -> Given {
    let mesh = shrunk(random);
    let heights = rising_heights(&mesh, random);
    paired(mesh, random).over(&heights)
}

/// One of these kinds, or a damaged one.
pub fn any(random: &mut Random) -> Given {
    let kinds = [small, right, perhaps_damaged];
    random.choose(&kinds)(random)
}

#[test]
fn right_meshes() {
    let tally = test_product::<AllLayersClean>("right meshes", 100, right);
    tally.require(&[0, 1, 9, 14], 20);
}

#[test]
fn small_meshes() {
    let tally = test_product::<AllLayersClean>("small meshes", 50, small);
    tally.require(&[0, 9, 14], 20);
}

#[test]
fn default_heights() {
    let tally = test_product::<AllLayersClean>("default heights", 50, by_default);
    tally.require(&[0, 9, 14], 20);
}

#[test]
fn meshes_and_tables_right_and_damaged() {
    let tally = test_product::<AllLayersClean>("right and damaged", 50, perhaps_damaged);
    tally.require(&[0], 10);
    tally.require_refusals(AllLayersClean::REFUSALS, 10);
    tally.require_places(12);
    assert_eq!(tally.count(16), 0);
}

#[test]
fn meshes_near_the_limits() {
    test_product::<AllLayersClean>("near the limits", 100_000, near_the_limits);
    test_product::<AllLayersClean>("small and near the limits", 100_000, |random| {
        let given = near_the_limits(random);
        let smaller = random.choose(&[1_000, 100_000, 1_000_000]);
        Given {
            mesh: given.mesh.smaller(smaller),
            ..given
        }
    });
}

#[test]
fn several_threads_at_once() {
    test_threads::<AllLayersClean>(2_000, any);
}
