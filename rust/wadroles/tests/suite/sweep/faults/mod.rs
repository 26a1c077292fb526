//! Faults that the random lists notice.

mod layer;
mod start;
mod step;

use super::lists::{compare_lists, small};
use crate::harness::{assert_told, Rounds};
use crate::operations::Versions;

/// Asserts that the lists notice a fault, with words of the difference that must be told.
#[track_caller]
fn assert_noticed(name: &str, words: &str, spoil: impl FnOnce(&mut Versions)) {
    let mut versions = Versions::default();
    spoil(&mut versions);
    let compared = compare_lists(&Rounds::fixed(1, 1_000), small, &versions);
    assert_told(name, compared, words);
}

#[test]
fn faults_of_start_are_noticed() {
    for (name, version, words) in start::FAULTS {
        assert_noticed(name, words, |versions| versions.start = Some(version));
    }
}

#[test]
fn faults_of_step_are_noticed() {
    for (name, version, words) in step::FAULTS {
        assert_noticed(name, words, |versions| versions.step = Some(version));
    }
}

#[test]
fn faults_of_layer_are_noticed() {
    for (name, version, words) in layer::FAULTS {
        assert_noticed(name, words, |versions| versions.layer = Some(version));
    }
}

#[test]
fn a_failure_names_seed_and_round_and_call() {
    let (_, version, _) = layer::FAULTS[0];
    let versions = Versions {
        layer: Some(version),
        ..Versions::default()
    };
    let rounds = Rounds::fixed(42, 1_000);
    let failure = compare_lists(&rounds, small, &versions).err().unwrap();
    assert!(failure.starts_with("seed 42, round "));
    assert!(failure.contains(": call "));
}
