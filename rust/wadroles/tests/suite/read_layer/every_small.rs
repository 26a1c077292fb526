//! Everything near a small file, and every small file of certain bytes.

use super::exact;
use crate::harness::{agree, Tally};
use crate::inputs::{
    sequences, shortened, with_a_byte_changed, with_a_byte_inserted, with_a_byte_removed,
    LAYER_FILE_P,
};
use oracle::{encode_layers, FileLayer};

/// Compares the product with the oracle on each file, for these layers.
fn compare_all(files: impl Iterator<Item = Vec<u8>>, layers: &[usize]) -> Tally {
    let mut tally = Tally::default();
    for file in files {
        for &i in layers {
            tally.add(&agree(&mut exact(&file, i)));
        }
    }
    tally
}

/// Small files: that of the specification's part P, one with values of several bytes, and some of the
/// least.
fn small_files() -> Vec<Vec<u8>> {
    let several_bytes = encode_layers(&[
        FileLayer {
            height: -70_000,
            contours: vec![vec![[1_048_576, -64], [-1_048_576, 63]], vec![[-1, 200]; 3]],
        },
        FileLayer {
            height: i32::MAX,
            contours: vec![],
        },
    ]);
    vec![
        vec![0],
        vec![1, 0, 0],
        vec![1, 255, 255, 255, 255, 15, 0],
        vec![2, 1, 0, 0, 1, 2, 1, 2, 3, 4],
        LAYER_FILE_P.to_vec(),
        several_bytes,
    ]
}

#[test]
fn every_shorter_file() {
    for file in small_files() {
        let tally = compare_all(shortened(&file), &[0, 1, 9]);
        assert_eq!(tally.count(13), 3 * file.len() as u64);
    }
}

#[test]
fn every_change_of_a_byte() {
    for file in small_files() {
        let tally = compare_all(with_a_byte_changed(&file), &[0, 1]);
        tally.require(&[13], 100);
    }
}

#[test]
fn every_byte_more_or_less() {
    for file in small_files() {
        let tally = compare_all(with_a_byte_inserted(&file), &[0, 1]);
        tally.require(&[13], 100);
        compare_all(with_a_byte_removed(&file), &[0, 1]);
    }
}

#[test]
fn every_file_of_two_bytes_or_fewer() {
    let bytes: Vec<u8> = (0..=255).collect();
    for length in 0..=2 {
        let tally = compare_all(sequences(&bytes, length), &[0]);
        // The file without layers is the only right one.
        assert_eq!(tally.count(15), u64::from(length == 1));
        assert_eq!(tally.count(0), 0);
    }
}

#[test]
fn every_file_of_one_empty_layer_or_less() {
    // Two bytes of any value after the count 1: a height and the contour count 0.
    let bytes: Vec<u8> = (0..=255).collect();
    let files = sequences(&bytes, 2).map(|rest| [&[1], &rest[..]].concat());
    assert_eq!(compare_all(files, &[0]).count(0), 128);
}

#[test]
fn every_file_of_few_bytes() {
    for length in 3..=6 {
        let tally = compare_all(sequences(&[0, 1, 2, 3, 4, 127, 128, 255], length), &[0]);
        tally.require(&[13], 1);
    }
}

#[test]
fn every_pair_of_layers_of_small_heights() {
    let files = sequences(&[0, 1, 2, 3, 126, 127, 128, 129, 255], 4)
        .map(|heights| [&[2], &heights[..2], &[0], &heights[2..], &[0]].concat());
    compare_all(files, &[0, 1]).require(&[0], 10);

    // The plain numbers of 2 heights of one byte each, of which every two have one order.
    let bytes: Vec<u8> = (0..128).collect();
    let files = sequences(&bytes, 2).map(|heights| vec![2, heights[0], 0, heights[1], 0]);
    assert_eq!(compare_all(files, &[1]).count(0), 128 * 127 / 2);
}

#[test]
fn every_contour_of_small_counts_and_points() {
    let bytes = [0, 1, 2, 3, 128, 130];
    let files = sequences(&bytes, 7).map(|rest| [&[1, 0], &rest[..]].concat());
    let tally = compare_all(files, &[0]);
    tally.require(&[0, 13], 100);
}
