//! Random files, right, broken and meaningless, against the oracle.

use crate::harness::{test_product, test_threads};
use crate::operations::{LayerFile, ReadLayer};
use files::{large_layers, random_bytes, random_layers, Damage, LayerDamage};
use meshes::Random;
use oracle::FileLayer;

/// One of so many layers as a rule, at times none of them.
fn random_layer(layers: usize, random: &mut Random) -> usize {
    match random.below(16) {
        0 => random.word() as usize,
        1 => random.choose(&[layers, layers + 1, 1 << 32, usize::MAX]),
        _ => random.below(layers.max(1)),
    }
}

/// The file of these layers.
pub fn of_layers(layers: &[FileLayer], random: &mut Random) -> LayerFile {
    LayerFile::of(layers, random_layer(layers.len(), random))
}

/// The file of some layers.
pub fn right(random: &mut Random) -> LayerFile {
    of_layers(&random_layers(random), random)
}

/// A file of values in the right form that break a rule.
pub fn against_the_rules(random: &mut Random) -> LayerFile {
    let mut layers = random_layers(random);
    for _ in 0..random.choose(&[1, 1, 2]) {
        LayerDamage::any(random).apply(&mut layers, random);
    }
    of_layers(&layers, random)
}

/// A file some of whose bytes are wrong.
fn spoiled(random: &mut Random) -> LayerFile {
    let mut spoiled = right(random);
    for _ in 0..random.choose(&[1, 1, 2]) {
        Damage::any(random).apply(&mut spoiled.file, random);
    }
    spoiled
}

/// A file of one of these kinds.
pub fn perhaps_broken(random: &mut Random) -> LayerFile {
    let kinds = [right, against_the_rules, spoiled];
    random.choose(&kinds)(random)
}

/// Bytes that look like a file at most for a while.
pub fn meaningless(random: &mut Random) -> LayerFile {
    let mut file = random_bytes(random);
    if let Some(count) = file.first_mut() {
        *count %= 4;
    }
    LayerFile {
        file,
        i: random.below(3),
    }
}

/// A file near the limits, right or not.
pub fn near_the_limits(random: &mut Random) -> LayerFile {
    let mut layers = large_layers(random);
    if random.one_in(4) {
        LayerDamage::any(random).apply(&mut layers, random);
    }
    let mut large = of_layers(&layers, random);
    if random.one_in(4) {
        Damage::any(random).apply(&mut large.file, random);
    }
    large
}

#[test]
fn right_files() {
    let tally = test_product::<ReadLayer>("right files", 4, right);
    tally.require(&[0, 15, 9], 100);
    assert_eq!(tally.count(13), 0);
}

#[test]
fn files_against_the_rules() {
    let tally = test_product::<ReadLayer>("files against the rules", 4, against_the_rules);
    tally.require(&[13], 100);
}

#[test]
fn files_with_wrong_bytes() {
    let tally = test_product::<ReadLayer>("files with wrong bytes", 4, spoiled);
    tally.require(&[0, 13, 15, 9], 20);
}

#[test]
fn meaningless_bytes() {
    let tally = test_product::<ReadLayer>("meaningless bytes", 1, meaningless);
    tally.require(&[0, 13, 15], 20);
}

#[test]
fn files_near_the_limits() {
    test_product::<ReadLayer>("near the limits", 8_000, near_the_limits);
}

#[test]
fn several_threads_at_once() {
    test_threads::<ReadLayer>(250, perhaps_broken);
}
