//! Everything near a small file, and every small file of certain bytes.

use super::layers_of;
use crate::harness::{agree, Case, Tally};
use crate::inputs::{
    sequences, shortened, with_a_byte_changed, with_a_byte_inserted, with_a_byte_removed,
    CLEAN_FILE_P, LAYER_FILE_P,
};
use crate::operations::{Ink, Job};
use oracle::encode_layers;

/// Compares the product with the oracle on each file, for these thicknesses.
fn compare_all(files: impl Iterator<Item = Vec<u8>>, thicknesses: &[u32]) -> Tally {
    let mut tally = Tally::default();
    for file in files {
        for &thickness in thicknesses {
            tally.add(&agree(&mut Case::<Ink>::exact(Job::new(&file, thickness))));
        }
    }
    tally
}

/// Small files, some with values of several bytes and sums of either sign.
fn small_files() -> Vec<Vec<u8>> {
    vec![
        vec![0],
        vec![1, 0, 0],
        LAYER_FILE_P.to_vec(),
        CLEAN_FILE_P.to_vec(),
        encode_layers(&layers_of(&[2_000_001, -7, 5_000_000_000])),
    ]
}

#[test]
fn every_shorter_file() {
    for file in small_files() {
        let tally = compare_all(shortened(&file), &[1, 1_000, 1_001]);
        assert_eq!(tally.count(13), 3 * file.len() as u64);
    }
}

#[test]
fn every_change_of_a_byte() {
    let mut met = Tally::default();
    for file in small_files() {
        met.add_all(&compare_all(with_a_byte_changed(&file), &[1, 1_000, 1_001]));
    }
    met.require(&[0, 13, 19], 1_000);
}

#[test]
fn every_byte_more_or_less() {
    let mut met = Tally::default();
    for file in small_files() {
        met.add_all(&compare_all(with_a_byte_inserted(&file), &[999, 0]));
        met.add_all(&compare_all(with_a_byte_removed(&file), &[999, 0]));
    }
    met.require(&[13], 1_000);
}

#[test]
fn every_file_of_two_bytes_or_fewer() {
    let bytes: Vec<u8> = (0..=255).collect();
    for length in 0..=2 {
        let tally = compare_all(sequences(&bytes, length), &[1_000, 1_001]);
        // The file without layers is the only right one.
        assert_eq!(tally.count(0), u64::from(length == 1));
        assert_eq!(tally.count(19), u64::from(length == 1));
    }
}

#[test]
fn every_file_of_few_bytes() {
    for length in 3..=6 {
        let files = sequences(&[0, 1, 2, 3, 4, 127, 128, 255], length);
        compare_all(files, &[1_000]).require(&[13], 1);
    }
}

#[test]
fn every_triangle_of_small_differences() {
    // Layers of one contour of three points, whose first is (0, 0) or lies at the limit.
    let far = [128, 128, 128, 1];
    for front in [[&[0][..], &[0]].concat(), [&far[..], &far].concat()] {
        let files = sequences(&[0, 1, 2, 3, 4, 127], 4)
            .map(|rest| [&[1, 0, 1, 3], &front[..], &rest].concat());
        let tally = compare_all(files, &[1, 1_000]);
        tally.require(&[0], 100);
    }
}

#[test]
fn every_pair_of_small_sums() {
    for first in -3..=3 {
        for second in -3..=3 {
            for unit in [1, 1_000, 2_000, 1_000_000, 2_000_000] {
                let file = encode_layers(&layers_of(&[first * unit, second * unit]));
                let tally = compare_all([file].into_iter(), &[1, 2, 1_000]);
                assert_eq!(tally.count(0), 3);
            }
        }
    }
}
