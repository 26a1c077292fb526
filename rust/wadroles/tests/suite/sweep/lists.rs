//! Random lists of steps, rises and wrong calls, against the oracle: after every call every table
//! is compared whole.

use super::calls::{Call, TOP};
use super::list::{List, SPOILED};
use crate::harness::{in_threads, report, Operation, Rounds, Tallies};
use crate::inputs::random_mesh;
use crate::operations::{Layer, Start, Step, Versions};
use meshes::{large_mesh, Mesh, Random};

/// Every answer was met so often, and at more than one place the refusals that have places.
fn require(tallies: &Tallies, least: u64) {
    for (name, refusals) in [
        (Start::NAME, Start::REFUSALS),
        (Step::NAME, Step::REFUSALS),
        (Layer::NAME, Layer::REFUSALS),
    ] {
        tallies.of(name).require(&[0], least);
        tallies.of(name).require_refusals(refusals, least);
    }
    tallies.of(TOP).require(&[0], least);
    tallies.of(SPOILED).require(&[0], least);
    assert_eq!(tallies.of(Layer::NAME).count(16), 0, "{tallies}");
}

/// A random kind of list: how a mesh is made, and how many calls follow.
type Kind = fn(&mut Random) -> (Mesh, usize);

/// Compares versions of the three with the oracle on a random list per round, until they differ.
pub fn compare_lists(rounds: &Rounds, kind: Kind, versions: &Versions) -> Result<Tallies, String> {
    let mut tallies = Tallies::default();
    rounds.each(|random| {
        let (mesh, calls) = kind(random);
        let mut list = List::new(mesh, random);
        list.call(Call::Start, versions, &mut tallies)?;
        for number in 1..=calls {
            let made = list.next_call(versions, &mut tallies, random);
            made.map_err(|failure| format!("call {number}, {failure}"))?;
        }
        Ok(())
    })?;
    Ok(tallies)
}

/// A small mesh and some calls.
pub fn small(random: &mut Random) -> (Mesh, usize) {
    (random_mesh(random), random.below(16))
}

/// A mesh of few vertices and many calls, so that the top is reached by steps.
fn few_vertices(random: &mut Random) -> (Mesh, usize) {
    let mut mesh = random_mesh(random);
    while mesh.vertex_count() > 9 {
        mesh = random_mesh(random);
    }
    if random.one_in(2) {
        mesh.coords.fill_with(|| random.within(-3..=3));
    }
    (mesh, 30)
}

/// A mesh near the limits and few calls.
fn near_the_limits(random: &mut Random) -> (Mesh, usize) {
    (large_mesh(random), 4)
}

/// Runs the product through the rounds and reports the answers met.
fn test_lists(name: &str, n: u64, kind: Kind) -> Tallies {
    let name = format!("sweep, {name}");
    let rounds = Rounds::one_in(n, &name);
    let tallies = compare_lists(&rounds, kind, &Versions::default())
        .unwrap_or_else(|failure| panic!("{name}: {failure}"));
    report(format!("{name}: {tallies}"));
    tallies
}

#[test]
fn lists_of_calls() {
    require(&test_lists("lists of calls", 50, small), 5);
}

#[test]
fn lists_of_calls_over_few_vertices() {
    require(&test_lists("few vertices", 50, few_vertices), 30);
}

#[test]
fn lists_of_calls_near_the_limits() {
    test_lists("near the limits", 50_000, near_the_limits);
}

#[test]
fn several_threads_at_once() {
    in_threads(2_000, "sweep", |rounds| {
        compare_lists(rounds, small, &Versions::default()).unwrap();
    });
}
