//! Everything near a small clean file, and every small contour.

use super::{exact, layer, TRIANGLE};
use crate::harness::{agree, Tally};
use crate::inputs::{
    sequences, shortened, with_a_byte_changed, with_a_byte_inserted, with_a_byte_removed,
    CLEAN_FILE_P, LAYER_FILE_P,
};
use oracle::encode_layers;

/// Compares the product with the oracle on each file, for these layers.
fn compare_all(files: impl Iterator<Item = Vec<u8>>, layers: &[usize]) -> Tally {
    let mut tally = Tally::default();
    for file in files {
        for &i in layers {
            tally.add(&agree(&mut exact(&file, i)));
        }
    }
    tally
}

fn small_files() -> Vec<Vec<u8>> {
    let several_bytes = encode_layers(&[
        layer(-70_000, &[&[[1_048_576, -64], [-1_048_576, 63], [0, 0]]]),
        layer(
            i32::MAX,
            &[&TRIANGLE, &[[-1, 200], [3, 4], [-1, 200], [0, 9]]],
        ),
    ]);
    vec![
        vec![0],
        vec![1, 0, 0],
        CLEAN_FILE_P.to_vec(),
        LAYER_FILE_P.to_vec(),
        several_bytes,
    ]
}

#[test]
fn every_shorter_file() {
    for file in small_files() {
        let tally = compare_all(shortened(&file), &[0, 1, 9]);
        assert_eq!(tally.count(13), 3 * file.len() as u64);
    }
}

#[test]
fn every_change_of_a_byte() {
    let mut met = Tally::default();
    for file in small_files() {
        met.add_all(&compare_all(with_a_byte_changed(&file), &[0, 1]));
    }
    met.require(&[0, 13, 18, 15], 100);
    met.require_places(18);
}

#[test]
fn every_byte_more_or_less() {
    let mut met = Tally::default();
    for file in small_files() {
        met.add_all(&compare_all(with_a_byte_inserted(&file), &[0, 1]));
        met.add_all(&compare_all(with_a_byte_removed(&file), &[0, 1]));
    }
    met.require(&[13], 1_000);
}

#[test]
fn every_contour_of_small_differences() {
    // Contours of two to five points whose first is (0, 0), each with the differences after it.
    let bytes = [0, 1, 2];
    for points in 2..=5 {
        let rest = 2 * (points - 1);
        let files = sequences(&bytes, rest).map(|rest| {
            let front = [1, 0, 1, points as u8, 0, 0];
            [&front[..], &rest].concat()
        });
        let tally = compare_all(files, &[0]);
        assert_eq!(tally.count(0) + tally.count(18), 3u64.pow(rest));
        assert_eq!(tally.count(0) > 0, points > 2);
    }
}
