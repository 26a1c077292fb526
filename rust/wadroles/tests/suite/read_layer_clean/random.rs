//! Random files, clean, full, damaged and meaningless, against the oracle.

use crate::harness::{test_product, test_threads};
use crate::operations::{LayerFile, ReadLayerClean};
use crate::read_layer::{against_the_rules, meaningless, near_the_limits, of_layers, right};
use files::{large_layers, random_clean_layers, ContourDamage, Damage};
use meshes::Random;
use oracle::{clean_layer, FileLayer};

/// A file in the clean profile.
fn clean(random: &mut Random) -> LayerFile {
    of_layers(&random_clean_layers(random), random)
}

/// The same with one unclean contour, or two.
fn unclean(random: &mut Random) -> LayerFile {
    let mut layers = random_clean_layers(random);
    for _ in 0..random.choose(&[1, 1, 2]) {
        spoil_contour(&mut layers, random);
    }
    of_layers(&layers, random)
}

fn spoil_contour(layers: &mut [FileLayer], random: &mut Random) {
    let mut contours: Vec<_> = layers.iter_mut().flat_map(|l| &mut l.contours).collect();
    if !contours.is_empty() {
        let chosen = random.below(contours.len());
        ContourDamage::any(random).apply(contours[chosen], random);
    }
}

/// Either with some wrong bytes.
fn spoiled(random: &mut Random) -> LayerFile {
    let kinds = [clean, unclean];
    let mut spoiled = random.choose(&kinds)(random);
    for _ in 0..random.choose(&[1, 1, 2]) {
        Damage::any(random).apply(&mut spoiled.file, random);
    }
    spoiled
}

/// A file of one of these kinds, or of the full profile.
pub fn any(random: &mut Random) -> LayerFile {
    let kinds = [clean, clean, unclean, spoiled, right, against_the_rules];
    random.choose(&kinds)(random)
}

/// A clean file near the limits, at times with an unclean contour.
fn clean_near_the_limits(random: &mut Random) -> LayerFile {
    let mut layers: Vec<FileLayer> = large_layers(random).iter().map(clean_layer).collect();
    if random.one_in(3) {
        spoil_contour(&mut layers, random);
    }
    of_layers(&layers, random)
}

#[test]
fn clean_files() {
    let tally = test_product::<ReadLayerClean>("clean files", 2, clean);
    tally.require(&[0, 15, 9], 100);
    assert_eq!(tally.count(13) + tally.count(18), 0);
}

#[test]
fn full_files() {
    let tally = test_product::<ReadLayerClean>("full files", 4, right);
    tally.require(&[0, 18, 15, 9], 100);
    tally.require_places(18);
    assert_eq!(tally.count(13), 0);
}

#[test]
fn files_with_unclean_contours() {
    let tally = test_product::<ReadLayerClean>("unclean contours", 2, unclean);
    tally.require(&[18], 100);
    tally.require_places(18);
    assert_eq!(tally.count(13), 0);
}

#[test]
fn files_with_wrong_bytes() {
    let tally = test_product::<ReadLayerClean>("files with wrong bytes", 4, spoiled);
    tally.require(&[0, 13, 18, 15, 9], 20);
}

#[test]
fn meaningless_bytes() {
    let tally = test_product::<ReadLayerClean>("meaningless bytes", 1, meaningless);
    tally.require(&[0, 13, 18, 15], 20);
}

#[test]
fn files_near_the_limits() {
    test_product::<ReadLayerClean>("near the limits", 8_000, near_the_limits);
    let name = "clean, near the limits";
    test_product::<ReadLayerClean>(name, 8_000, clean_near_the_limits);
}

#[test]
fn several_threads_at_once() {
    test_threads::<ReadLayerClean>(250, any);
}
