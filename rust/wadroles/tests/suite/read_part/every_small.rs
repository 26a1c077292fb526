//! Everything near a small file, and every small file of certain bytes.

use super::exact;
use crate::harness::{agree, Tally};
use crate::inputs::{
    sequences, shortened, with_a_byte_changed, with_a_byte_inserted, with_a_byte_removed,
    PART_FILE_P,
};
use oracle::{encode_part, Part};

/// Compares the product with the oracle on each file.
fn compare_all(files: impl Iterator<Item = Vec<u8>>) -> Tally {
    let mut tally = Tally::default();
    for file in files {
        tally.add(&agree(&mut exact(&file)));
    }
    tally
}

/// Small files: that of the specification's part P, one with values of several bytes, and some of the
/// least.
fn small_files() -> Vec<Vec<u8>> {
    let several_bytes = Part {
        coords: vec![i32::MIN, 1_048_576, -65],
        corners: vec![u32::MAX, 70_000, 0],
        heights: vec![64, i32::MAX],
    };
    vec![
        vec![0, 0, 0],
        vec![1, 0, 1, 2, 3, 0],
        vec![0, 1, 4, 5, 6, 1, 7],
        PART_FILE_P.to_vec(),
        encode_part(&several_bytes),
    ]
}

#[test]
fn every_shorter_file() {
    for file in small_files() {
        let tally = compare_all(shortened(&file));
        assert_eq!(tally.count(13), file.len() as u64);
    }
}

#[test]
fn every_change_of_a_byte() {
    for file in small_files() {
        compare_all(with_a_byte_changed(&file)).require(&[13], 100);
    }
}

#[test]
fn every_byte_more_or_less() {
    for file in small_files() {
        compare_all(with_a_byte_inserted(&file)).require(&[13], 100);
        compare_all(with_a_byte_removed(&file)).require(&[13], 1);
    }
}

#[test]
fn every_file_of_three_bytes_or_fewer_without_vertices() {
    let bytes: Vec<u8> = (0..=255).collect();
    for length in 0..=2 {
        assert_eq!(compare_all(sequences(&bytes, length)).count(0), 0);
    }
    // None of any kind is the only right one that begins so.
    let files = sequences(&bytes, 2).map(|rest| [&[0], &rest[..]].concat());
    assert_eq!(compare_all(files).count(0), 1);
}

#[test]
fn every_file_of_one_height() {
    let bytes: Vec<u8> = (0..=255).collect();
    let files = sequences(&bytes, 2).map(|height| [&[0, 0, 1], &height[..]].concat());
    // Two bytes make a number if the first has 128 added, and the last neither that nor is 0.
    assert_eq!(compare_all(files).count(0), 128 * 127);
}

#[test]
fn every_file_of_few_bytes() {
    for length in 3..=6 {
        let tally = compare_all(sequences(&[0, 1, 2, 3, 4, 127, 128, 255], length));
        tally.require(&[0, 13], 1);
    }
}
