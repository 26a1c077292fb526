//! Sweeps over meshes with shared edges, paired as Check pairs them, match their cuts. The oracle has no
//! part in it but where that is said.

use super::promises::Run;
use super::Swept;
use crate::harness::{test_product, Case, Operation, RandomInput, Rounds};
use crate::inputs::{checked, shared, solids_sharing_edges, two_cubes_crossed, uneven};
use crate::operations::{Given, Layer, Step};
use meshes::sheets::flaps;
use meshes::Random;

/// A sweep that has started, whose calls the oracle makes too.
fn started(given: Given) -> Swept {
    let mut sweep = Swept::of(Case::exact(given));
    assert_eq!(sweep.start(), Ok(0));
    sweep
}

#[test]
fn after_any_list_the_rings_are_those_of_the_plain_sweep() {
    let rounds = Rounds::one_in(50, "sweep, shared edges");
    let share = rounds.share(|random| {
        let mut run = Run::over(shared(random), random);
        for _ in 0..random.below(12) {
            run.any_call(random);
        }
        assert_eq!(run.given.passed, run.position);
        run.assert_entries();
        run.assert_rings();
        run.rising().contains(&true)
    });
    assert!(share > 0.2, "too few lists end with a crossing: {share}");
}

#[test]
fn stacks_and_fans_are_swept_as_they_are_cut() {
    for (given, seed) in solids_sharing_edges().into_iter().zip(0..) {
        let mut random = Random::new(seed);
        let heights = given.mesh.coords.iter().skip(2).step_by(3);
        let (low, high) = (*heights.clone().min().unwrap(), *heights.max().unwrap());
        let mut run = Run::over(given, &mut random);
        for height in low - 1..=high + 1 {
            run.rise(height, &mut random);
            run.assert_entries();
            run.assert_rings();
            assert_eq!(run.position, run.below(height));
        }
    }
}

#[test]
fn stacks_and_fans_are_swept_by_steps() {
    for (given, seed) in solids_sharing_edges().into_iter().zip(0..) {
        let mut run = Run::over(given, &mut Random::new(seed));
        for _ in 0..=run.given.mesh.vertex_count() {
            run.step();
            run.assert_entries();
            run.assert_rings();
        }
        assert_eq!(run.position, run.given.mesh.vertex_count());
    }
}

#[test]
fn two_cubes_linked_across_are_one_ring() {
    let mut sweep = started(checked(two_cubes_crossed()));
    // Seven vertices lie at the foot.
    for passed in 1..=7 {
        assert_eq!(sweep.step(), Ok(Some(passed)));
    }
    assert_eq!(sweep.layer(5), Ok((7, 1, 16)));
    assert_eq!(sweep.ring()[31], 21);
    assert_eq!(sweep.layer(10), Ok((7, 1, 16)));
    assert_eq!(sweep.layer(11), Ok((14, 0, 0)));
}

#[test]
fn an_edge_of_30_000_flaps_is_swept() {
    let mut sweep = started(checked(flaps(30_000, 1_000_000)));
    assert_eq!(sweep.step(), Ok(Some(1)));
    assert_eq!(sweep.layer(0), Ok((1, 30_000, 60_000)));
    assert_eq!(sweep.layer(500_000), Ok((30_001, 30_000, 60_000)));
    assert_eq!(sweep.step(), Ok(Some(30_002)));
    assert_eq!(sweep.step(), Ok(None));
}

/// Calls at a random place of a sweep over a mesh with an uneven edge: product and oracle agree.
fn meet_uneven<O: Operation<Input = Given>>() {
    let input: RandomInput<O> = |random| {
        let mut given = uneven(random);
        given.passed = random.below(given.mesh.vertex_count() + 1);
        given
    };
    let tally = test_product::<O>("uneven edges", 50, input);
    tally.require(&[0, 7], 20);
    tally.require_places(7);
}

#[test]
fn sweeps_over_uneven_edges() {
    meet_uneven::<Step>();
    meet_uneven::<Layer>();
}
