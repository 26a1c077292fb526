//! Files of meshes with shared edges, paired as Check pairs them: they hold, byte by byte, the layers
//! that single cuts give, in either profile.

use super::{file_in, heights_taken, product_file, single_cuts};
use crate::clean::cleaned;
use crate::harness::{test_product, Rounds};
use crate::inputs::{checked, shared, solids_sharing_edges, two_cubes_crossed, uneven};
use crate::operations::{AllLayers, Given};
use meshes::sheets::two_cubes;
use oracle::{encode_layers, FileLayer};

/// Compares the files with those of single cuts, and gives the layers.
#[track_caller]
fn compare_files(given: &Given) -> Vec<FileLayer> {
    let cuts = single_cuts(given, &heights_taken(given));
    assert_eq!(product_file::<false>(given), encode_layers(&cuts));
    let clean = cuts.iter().map(|layer| FileLayer {
        height: layer.height,
        contours: cleaned(&layer.contours),
    });
    let clean: Vec<FileLayer> = clean.collect();
    assert_eq!(product_file::<true>(given), encode_layers(&clean));
    cuts
}

#[test]
fn the_file_is_that_of_single_cuts() {
    let rounds = Rounds::one_in(50, "all layers, shared edges");
    let share = rounds.share(|random| {
        let mut given = shared(random);
        if given.heights.is_empty() && heights_taken(&given).len() > 100 {
            given.heights.push(given.height);
        }
        let layers = compare_files(&given);
        layers.iter().any(|layer| !layer.contours.is_empty())
    });
    assert!(share > 0.4, "too few files have a contour: {share}");
}

#[test]
fn stacks_and_fans_are_written_as_they_are_cut() {
    for solids in solids_sharing_edges() {
        let heights: Vec<i32> = (-21..=61).collect();
        let layers = compare_files(&solids.over(&heights));
        assert!(layers.iter().any(|layer| !layer.contours.is_empty()));
    }
}

#[test]
fn two_cubes_by_default_heights() {
    let contours = |mesh| {
        let layers = compare_files(&checked(mesh));
        let counts = layers.iter().map(|layer| layer.contours.len());
        counts.collect::<Vec<_>>()
    };
    assert_eq!(contours(two_cubes(250)), [2, 2, 2]);
    assert_eq!(contours(two_cubes_crossed()), []);
}

#[test]
fn the_file_of_two_cubes_linked_across() {
    let given = checked(two_cubes_crossed()).over(&[5]);
    let file = file_in::<false>(given);
    // One layer at height 5 of one contour with sixteen points.
    assert_eq!(file[..4], [1, 10, 1, 16]);
    assert_eq!(file.len(), 4 + 2 * 16);
}

#[test]
fn random_meshes_with_shared_edges() {
    let tally = test_product::<AllLayers>("shared edges", 100, shared);
    tally.require(&[0, 9, 14], 20);
}

#[test]
fn random_meshes_with_uneven_edges() {
    let tally = test_product::<AllLayers>("uneven edges", 50, uneven);
    tally.require(&[0, 7], 20);
    tally.require_places(7);
}
