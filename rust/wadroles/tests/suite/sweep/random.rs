//! Start, Step and Layer, each by itself at a random place of a sweep, against the oracle.

use crate::harness::{assert_common_faults_noticed, test_product, Operation, RandomInput, Tally};
use crate::inputs::{damage_mesh, right};
use crate::operations::{Given, Layer, Start, Step};
use meshes::{OrderDamage, PairingDamage, Random};

/// A sweep under way, of which nothing, something or two things are damaged. Its ring table is right,
/// or too short.
fn perhaps_damaged(random: &mut Random) -> Given {
    let mut given = right(random);
    given.passed = random.below(given.mesh.vertex_count() + 1);
    for _ in 0..random.choose(&[0, 0, 1, 1, 2]) {
        match random.below(4) {
            0 => damage_mesh(&mut given, random),
            1 => PairingDamage::any(random).apply(&given.mesh, &mut given.pairing, random),
            2 => OrderDamage::any(random).apply(&given.mesh, &mut given.order, random),
            _ => given.passed += random.choose(&[1, 100, 1 << 32, 1 << 63]),
        }
    }
    given
}

fn met<O: Operation<Input = Given>>() -> Tally {
    let input: RandomInput<O> = perhaps_damaged;
    test_product::<O>("at a random place", 25, input)
}

#[test]
fn calls_at_a_random_place() {
    met::<Start>().require_refusals(Start::REFUSALS, 10);
    met::<Step>().require_refusals(Step::REFUSALS, 10);
    met::<Layer>().require_refusals(Layer::REFUSALS, 10);
}

#[test]
fn common_faults_are_noticed() {
    assert_common_faults_noticed::<Start>(1_000, perhaps_damaged);
    assert_common_faults_noticed::<Step>(1_000, perhaps_damaged);
    assert_common_faults_noticed::<Layer>(1_000, perhaps_damaged);
}
